; llvm.experimental.stackmap: values in registers, of several sizes; records with no location and with odd and
; even numbers of them; two records at one address; functions with several records and, between them, one with
; none, which LLVM leaves out of the section.

declare void @llvm.experimental.stackmap(i64, i32, ...)
declare i64 @measure(i64, i64)

; Three records: no location, one in a register, two in registers.
define i64 @registers(i64 %a, i64 %b) {
  call void (i64, i32, ...) @llvm.experimental.stackmap(i64 1, i32 8)
  %c = call i64 @measure(i64 %a, i64 %b)
  call void (i64, i32, ...) @llvm.experimental.stackmap(i64 2, i32 4, i64 %c)
  %d = mul i64 %c, %a
  call void (i64, i32, ...) @llvm.experimental.stackmap(i64 3, i32 0, i64 %c, i64 %d)
  %e = add i64 %c, %d
  ret i64 %e
}

; No record.
define i64 @silent(i64 %a) {
  %b = call i64 @measure(i64 %a, i64 %a)
  ret i64 %b
}

; An integer of four bytes, floating-point numbers and a vector. (Narrower integers: narrow.x86_64.ll.)
define void @sizes(i32 %a, float %b, double %c, <4 x float> %d) {
  call void (i64, i32, ...) @llvm.experimental.stackmap(i64 4, i32 0, i32 %a, float %b, double %c)
  call void (i64, i32, ...) @llvm.experimental.stackmap(i64 5, i32 0, <4 x float> %d, i32 %a)
  ret void
}

; Two records at one address.
define void @twice(i64 %a) {
  call void (i64, i32, ...) @llvm.experimental.stackmap(i64 7, i32 0, i64 %a)
  call void (i64, i32, ...) @llvm.experimental.stackmap(i64 8, i32 0, i64 %a, i64 7)
  ret void
}
