; gc.statepoint written out: pairs of base and derived pointers live over calls, with and without deoptimisation
; values, with none, one and several pairs, a null pair and several statepoints in one function.

declare token @llvm.experimental.gc.statepoint.p0f_isVoidf(i64, i32, void ()*, i32, i32, ...)
declare token @llvm.experimental.gc.statepoint.p0f_p1i8p1i8f(i64, i32, i8 addrspace(1)* (i8 addrspace(1)*)*, i32,
  i32, ...)
declare i8 addrspace(1)* @llvm.experimental.gc.relocate.p1i8(token, i32, i32)
declare i8 addrspace(1)* @llvm.experimental.gc.result.p1i8(token)
declare void @collect()
declare i8 addrspace(1)* @fetch(i8 addrspace(1)*)

; One object and a pointer into it: the pairs (base, base) and (base, derived).
define i8 addrspace(1)* @derived(i8 addrspace(1)* %object, i64 %n) gc "statepoint-example" {
  %inside = getelementptr i8, i8 addrspace(1)* %object, i64 %n
  %call = call token (i64, i32, void ()*, i32, i32, ...) @llvm.experimental.gc.statepoint.p0f_isVoidf(i64 1, i32 0,
    void ()* @collect, i32 0, i32 0, i32 0, i32 0) ["gc-live"(i8 addrspace(1)* %object, i8 addrspace(1)* %inside)]
  %base = call i8 addrspace(1)* @llvm.experimental.gc.relocate.p1i8(token %call, i32 0, i32 0)
  %new = call i8 addrspace(1)* @llvm.experimental.gc.relocate.p1i8(token %call, i32 0, i32 1)
  store volatile i8 1, i8 addrspace(1)* %base
  ret i8 addrspace(1)* %new
}

; No pair: exactly the three leading constants.
define void @bare() gc "statepoint-example" {
  %call = call token (i64, i32, void ()*, i32, i32, ...) @llvm.experimental.gc.statepoint.p0f_isVoidf(i64 2, i32 0,
    void ()* @collect, i32 0, i32 0, i32 0, i32 0)
  ret void
}

; Deoptimisation values of all sorts before the pairs; an odd number of them, so that pairs begin at an odd place.
define i8 addrspace(1)* @deopt(i8 addrspace(1)* %object, i32 %a) gc "statepoint-example" {
  %local = alloca i64
  store volatile i64 9, i64* %local
  %call = call token (i64, i32, void ()*, i32, i32, ...) @llvm.experimental.gc.statepoint.p0f_isVoidf(i64 3, i32 0,
    void ()* @collect, i32 0, i32 0, i32 0, i32 0)
    ["deopt"(i32 %a, i64 -7, i64 81985529216486895, i64* %local, i8 addrspace(1)* %object),
     "gc-live"(i8 addrspace(1)* %object)]
  %base = call i8 addrspace(1)* @llvm.experimental.gc.relocate.p1i8(token %call, i32 0, i32 0)
  ret i8 addrspace(1)* %base
}

; Three statepoints, one after the other; the second call has an argument and a result; the third lists a null.
define i8 addrspace(1)* @chain(i8 addrspace(1)* %one, i8 addrspace(1)* %two) gc "statepoint-example" {
  %t1 = call token (i64, i32, void ()*, i32, i32, ...) @llvm.experimental.gc.statepoint.p0f_isVoidf(i64 4, i32 0,
    void ()* @collect, i32 0, i32 0, i32 0, i32 0) ["gc-live"(i8 addrspace(1)* %one, i8 addrspace(1)* %two)]
  %one1 = call i8 addrspace(1)* @llvm.experimental.gc.relocate.p1i8(token %t1, i32 0, i32 0)
  %two1 = call i8 addrspace(1)* @llvm.experimental.gc.relocate.p1i8(token %t1, i32 1, i32 1)
  %t2 = call token (i64, i32, i8 addrspace(1)* (i8 addrspace(1)*)*, i32, i32, ...)
    @llvm.experimental.gc.statepoint.p0f_p1i8p1i8f(i64 5, i32 0, i8 addrspace(1)* (i8 addrspace(1)*)* @fetch,
    i32 1, i32 0, i8 addrspace(1)* %one1, i32 0, i32 0) ["gc-live"(i8 addrspace(1)* %two1)]
  %got = call i8 addrspace(1)* @llvm.experimental.gc.result.p1i8(token %t2)
  %two2 = call i8 addrspace(1)* @llvm.experimental.gc.relocate.p1i8(token %t2, i32 0, i32 0)
  %t3 = call token (i64, i32, void ()*, i32, i32, ...) @llvm.experimental.gc.statepoint.p0f_isVoidf(i64 6, i32 0,
    void ()* @collect, i32 0, i32 0, i32 0, i32 0)
    ["gc-live"(i8 addrspace(1)* %got, i8 addrspace(1)* null, i8 addrspace(1)* %two2)]
  %got3 = call i8 addrspace(1)* @llvm.experimental.gc.relocate.p1i8(token %t3, i32 0, i32 0)
  %null3 = call i8 addrspace(1)* @llvm.experimental.gc.relocate.p1i8(token %t3, i32 1, i32 1)
  %two3 = call i8 addrspace(1)* @llvm.experimental.gc.relocate.p1i8(token %t3, i32 2, i32 2)
  store volatile i8 2, i8 addrspace(1)* %two3
  ret i8 addrspace(1)* %got3
}

; A space to be patched instead of a call, which flag and length ask for.
define void @patchable() gc "statepoint-example" {
  %call = call token (i64, i32, void ()*, i32, i32, ...) @llvm.experimental.gc.statepoint.p0f_isVoidf(i64 7, i32 8,
    void ()* null, i32 0, i32 0, i32 0, i32 0)
  ret void
}
