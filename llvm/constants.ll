; Constants and frame addresses: small constants, positive, zero and negative (kind 4); large ones, which go into
; the pool, each once (kind 5); allocas (kind 2), also in a frame whose size is not known.

declare void @llvm.experimental.stackmap(i64, i32, ...)
declare void @collect()

; The smallest and largest numbers that fit a signed 32-bit offset, and their neighbours that do not.
define void @edges() {
  call void (i64, i32, ...) @llvm.experimental.stackmap(i64 1, i32 0,
    i64 0, i64 1, i64 -1, i64 -2147483648, i64 2147483647)
  call void (i64, i32, ...) @llvm.experimental.stackmap(i64 2, i32 0,
    i64 -2147483649, i64 2147483648, i64 4294967295, i64 4294967296)
  ret void
}

; Pool entries of another function used again, and the two extremes of 64 bits.
define void @pool() {
  call void (i64, i32, ...) @llvm.experimental.stackmap(i64 3, i32 0,
    i64 4294967296, i64 1311768467463790320, i64 -9223372036854775808, i64 9223372036854775807,
    i64 1311768467463790320)
  ret void
}

; Narrow constants.
define void @narrow() {
  call void (i64, i32, ...) @llvm.experimental.stackmap(i64 4, i32 0, i8 -1, i16 -2, i32 -3, i1 true, i8* null)
  ret void
}

; Addresses in the frame, above and below the places the prologue saves.
define i64 @frame(i64 %a) {
  %one = alloca i64
  %many = alloca [40 x i64]
  %two = alloca i32
  store volatile i64 %a, i64* %one
  call void @collect()
  call void (i64, i32, ...) @llvm.experimental.stackmap(i64 5, i32 8,
    i64* %one, [40 x i64]* %many, i32* %two, i64 -5)
  %b = load volatile i64, i64* %one
  ret i64 %b
}

; An alloca whose length is known only when the program runs: the stack size of this function is 2^64 - 1.
define void @unknown(i64 %n) {
  %fixed = alloca i64
  %open = alloca i64, i64 %n
  store volatile i64 %n, i64* %open
  call void @collect()
  call void (i64, i32, ...) @llvm.experimental.stackmap(i64 6, i32 0, i64* %fixed, i64 6148914691236517205)
  ret void
}
