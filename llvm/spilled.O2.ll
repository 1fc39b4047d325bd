; llvm.experimental.stackmap with more values than registers: some of them are in the frame (kind 3), above and
; below the frame pointer. Only -O2: at -O0 llc keeps every value of a stack map in a register and runs out of them.

declare void @llvm.experimental.stackmap(i64, i32, ...)
declare void @collect()

; The ID needs all its eight bytes.
define void @spilled(i64 %a, i64 %b, i64 %c, i64 %d, i64 %e, i64 %f, i64 %g, i64 %h, i64 %i, i64 %j, i64 %k, i64 %l,
    i64 %m, i64 %n, i64 %o, i64 %p, i64 %q, i64 %r, i32 %s) {
  call void @collect()
  call void (i64, i32, ...) @llvm.experimental.stackmap(i64 -81985529216486896, i32 12, i64 %a, i64 %b, i64 %c,
    i64 %d, i64 %e, i64 %f, i64 %g, i64 %h, i64 %i, i64 %j, i64 %k, i64 %l, i64 %m, i64 %n, i64 %o, i64 %p, i64 %q,
    i64 %r, i32 %s)
  ret void
}
