; Statepoints with so many pointers that their places depend on how many may stay in registers: in memory all of them, or some
; in registers that a callee has to keep and the others in memory. A pointer and its base can be of one sort or of two.

declare token @llvm.experimental.gc.statepoint.p0f_isVoidf(i64, i32, void ()*, i32, i32, ...)
declare i64 addrspace(1)* @llvm.experimental.gc.relocate.p1i64(token, i32, i32)
declare void @collect()

; What was computed so far, with the word that a pointer points to.
define i64 @mix(i64 %sum, i64 addrspace(1)* %pointer) "gc-leaf-function" {
  %word = load volatile i64, i64 addrspace(1)* %pointer
  %scaled = mul i64 %sum, 31
  %mixed = add i64 %scaled, %word
  ret i64 %mixed
}

; Two objects, each with a pointer into it, and a pointer into a third one that is not listed itself.
define i64 @few(i64 addrspace(1)* %one, i64 addrspace(1)* %two, i64 addrspace(1)* %three, i64 %n)
    gc "statepoint-example" {
  %in.one = getelementptr i64, i64 addrspace(1)* %one, i64 %n
  %in.two = getelementptr i64, i64 addrspace(1)* %two, i64 2
  %in.three = getelementptr i64, i64 addrspace(1)* %three, i64 %n
  %call = call token (i64, i32, void ()*, i32, i32, ...) @llvm.experimental.gc.statepoint.p0f_isVoidf(i64 1, i32 0,
    void ()* @collect, i32 0, i32 0, i32 0, i32 0)
    ["gc-live"(i64 addrspace(1)* %one, i64 addrspace(1)* %in.one, i64 addrspace(1)* %two, i64 addrspace(1)* %in.two,
      i64 addrspace(1)* %three, i64 addrspace(1)* %in.three)]
  %new0 = call i64 addrspace(1)* @llvm.experimental.gc.relocate.p1i64(token %call, i32 0, i32 0)
  %new1 = call i64 addrspace(1)* @llvm.experimental.gc.relocate.p1i64(token %call, i32 0, i32 1)
  %new2 = call i64 addrspace(1)* @llvm.experimental.gc.relocate.p1i64(token %call, i32 2, i32 2)
  %new3 = call i64 addrspace(1)* @llvm.experimental.gc.relocate.p1i64(token %call, i32 2, i32 3)
  %new4 = call i64 addrspace(1)* @llvm.experimental.gc.relocate.p1i64(token %call, i32 4, i32 5)
  %sum0 = call i64 @mix(i64 0, i64 addrspace(1)* %new0)
  %sum1 = call i64 @mix(i64 %sum0, i64 addrspace(1)* %new1)
  %sum2 = call i64 @mix(i64 %sum1, i64 addrspace(1)* %new2)
  %sum3 = call i64 @mix(i64 %sum2, i64 addrspace(1)* %new3)
  %sum4 = call i64 @mix(i64 %sum3, i64 addrspace(1)* %new4)
  ret i64 %sum4
}

; Four objects with two pointers into each and a null: more than there are registers that a callee has to keep.
define i64 @many(i64 addrspace(1)* %a, i64 addrspace(1)* %b, i64 addrspace(1)* %c, i64 addrspace(1)* %d, i64 %n)
    gc "statepoint-example" {
  %a.one = getelementptr i64, i64 addrspace(1)* %a, i64 %n
  %a.two = getelementptr i64, i64 addrspace(1)* %a, i64 -3
  %b.one = getelementptr i64, i64 addrspace(1)* %b, i64 %n
  %b.two = getelementptr i64, i64 addrspace(1)* %b, i64 -3
  %c.one = getelementptr i64, i64 addrspace(1)* %c, i64 %n
  %c.two = getelementptr i64, i64 addrspace(1)* %c, i64 -3
  %d.one = getelementptr i64, i64 addrspace(1)* %d, i64 %n
  %d.two = getelementptr i64, i64 addrspace(1)* %d, i64 -3
  %call = call token (i64, i32, void ()*, i32, i32, ...) @llvm.experimental.gc.statepoint.p0f_isVoidf(i64 2, i32 0,
    void ()* @collect, i32 0, i32 0, i32 0, i32 0)
    ["gc-live"(i64 addrspace(1)* %a, i64 addrspace(1)* %a.one, i64 addrspace(1)* %a.two, i64 addrspace(1)* %b,
      i64 addrspace(1)* %b.one, i64 addrspace(1)* %b.two, i64 addrspace(1)* %c, i64 addrspace(1)* %c.one,
      i64 addrspace(1)* %c.two, i64 addrspace(1)* %d, i64 addrspace(1)* %d.one, i64 addrspace(1)* %d.two,
      i64 addrspace(1)* null)]
  %new0 = call i64 addrspace(1)* @llvm.experimental.gc.relocate.p1i64(token %call, i32 0, i32 2)
  %new1 = call i64 addrspace(1)* @llvm.experimental.gc.relocate.p1i64(token %call, i32 0, i32 0)
  %new2 = call i64 addrspace(1)* @llvm.experimental.gc.relocate.p1i64(token %call, i32 0, i32 1)
  %new3 = call i64 addrspace(1)* @llvm.experimental.gc.relocate.p1i64(token %call, i32 3, i32 5)
  %new4 = call i64 addrspace(1)* @llvm.experimental.gc.relocate.p1i64(token %call, i32 3, i32 3)
  %new5 = call i64 addrspace(1)* @llvm.experimental.gc.relocate.p1i64(token %call, i32 3, i32 4)
  %new6 = call i64 addrspace(1)* @llvm.experimental.gc.relocate.p1i64(token %call, i32 6, i32 8)
  %new7 = call i64 addrspace(1)* @llvm.experimental.gc.relocate.p1i64(token %call, i32 6, i32 6)
  %new8 = call i64 addrspace(1)* @llvm.experimental.gc.relocate.p1i64(token %call, i32 6, i32 7)
  %new9 = call i64 addrspace(1)* @llvm.experimental.gc.relocate.p1i64(token %call, i32 9, i32 11)
  %new10 = call i64 addrspace(1)* @llvm.experimental.gc.relocate.p1i64(token %call, i32 9, i32 9)
  %new11 = call i64 addrspace(1)* @llvm.experimental.gc.relocate.p1i64(token %call, i32 9, i32 10)
  %new12 = call i64 addrspace(1)* @llvm.experimental.gc.relocate.p1i64(token %call, i32 12, i32 12)
  %sum0 = call i64 @mix(i64 0, i64 addrspace(1)* %new0)
  %sum1 = call i64 @mix(i64 %sum0, i64 addrspace(1)* %new1)
  %sum2 = call i64 @mix(i64 %sum1, i64 addrspace(1)* %new2)
  %sum3 = call i64 @mix(i64 %sum2, i64 addrspace(1)* %new3)
  %sum4 = call i64 @mix(i64 %sum3, i64 addrspace(1)* %new4)
  %sum5 = call i64 @mix(i64 %sum4, i64 addrspace(1)* %new5)
  %sum6 = call i64 @mix(i64 %sum5, i64 addrspace(1)* %new6)
  %sum7 = call i64 @mix(i64 %sum6, i64 addrspace(1)* %new7)
  %sum8 = call i64 @mix(i64 %sum7, i64 addrspace(1)* %new8)
  %sum9 = call i64 @mix(i64 %sum8, i64 addrspace(1)* %new9)
  %sum10 = call i64 @mix(i64 %sum9, i64 addrspace(1)* %new10)
  %sum11 = call i64 @mix(i64 %sum10, i64 addrspace(1)* %new11)
  %sum12 = call i64 @mix(i64 %sum11, i64 addrspace(1)* %new12)
  ret i64 %sum12
}
