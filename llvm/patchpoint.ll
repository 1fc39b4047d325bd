; llvm.experimental.patchpoint with live-outs: the registers that hold a value which is needed after the patch
; point. The numbers of live-outs are both odd and even, their sizes both 8 and 16 bytes.

declare void @llvm.experimental.patchpoint.void(i64, i32, i8*, i32, ...)
declare i64 @llvm.experimental.patchpoint.i64(i64, i32, i8*, i32, ...)
declare i64 @measure(i64, i64)

; Arguments and result are in any registers, and all of them are locations. The values stay live.
define i64 @anywhere(i64 %a, i64 %b, i64 %c) {
  %d = call anyregcc i64 (i64, i32, i8*, i32, ...) @llvm.experimental.patchpoint.i64(i64 1, i32 16, i8* null,
    i32 2, i64 %a, i64 %b, i64 %c)
  %e = add i64 %d, %a
  %f = xor i64 %e, %b
  %g = mul i64 %f, %c
  ret i64 %g
}

; No value live but the result.
define i64 @result(i64 %a) {
  %b = call anyregcc i64 (i64, i32, i8*, i32, ...) @llvm.experimental.patchpoint.i64(i64 2, i32 16, i8* null,
    i32 1, i64 %a)
  ret i64 %b
}

; Nothing live after it.
define void @nothing(i64 %a) {
  call anyregcc void (i64, i32, i8*, i32, ...) @llvm.experimental.patchpoint.void(i64 3, i32 16, i8* null,
    i32 0, i64 %a)
  ret void
}

; Floating-point numbers and a vector stay live. Two patch points in one function, of different shapes.
define <2 x double> @wide(<2 x double> %a, double %b, i32 %c) {
  call anyregcc void (i64, i32, i8*, i32, ...) @llvm.experimental.patchpoint.void(i64 4, i32 16, i8* null, i32 0)
  %d = insertelement <2 x double> %a, double %b, i32 1
  %e = sitofp i32 %c to double
  call anyregcc void (i64, i32, i8*, i32, ...) @llvm.experimental.patchpoint.void(i64 5, i32 16, i8* null,
    i32 1, i32 %c, double %e)
  %f = insertelement <2 x double> %d, double %e, i32 0
  ret <2 x double> %f
}

; A real call by the target's own convention: the arguments are no locations. The function's other call comes
; before it: on x86-64 llc 14 ends with a fault where one follows, because the shadow stack pointer is then a
; live-out and has no DWARF number.
define i64 @called(i64 %x, i64 %b) {
  %p = inttoptr i64 4096 to i8*
  %a = call i64 @measure(i64 %x, i64 %b)
  %c = call i64 (i64, i32, i8*, i32, ...) @llvm.experimental.patchpoint.i64(i64 6, i32 32, i8* %p,
    i32 2, i64 %a, i64 %b, i64 %a, i64 12345678901234567)
  %d = sub i64 %c, %a
  ret i64 %d
}
