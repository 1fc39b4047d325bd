; Values of one and two bytes. Only x86-64: llc 14 for AArch64 ends with a fault on them.

declare void @llvm.experimental.stackmap(i64, i32, ...)

define void @narrow(i8 %a, i16 %b, i32 %c) {
  call void (i64, i32, ...) @llvm.experimental.stackmap(i64 1, i32 0, i8 %a, i16 %b, i32 %c)
  ret void
}
