; Vectors of pointers live over calls: each of their locations holds several pointers, one after another, 8 bytes each.
; LLVM aligns the slot of a vector to its size rounded up to a power of two. Over 16 bytes it then aligns the whole frame,
; whose size is no longer known. "no-realign-stack" keeps it known.

declare void @collect()
declare token @llvm.experimental.gc.statepoint.p0f_isVoidf(i64, i32, void ()*, i32, i32, ...)
declare i8 addrspace(1)* @llvm.experimental.gc.relocate.p1i8(token, i32, i32)
declare <2 x i8 addrspace(1)*> @llvm.experimental.gc.relocate.v2p1i8(token, i32, i32)
declare <3 x i8 addrspace(1)*> @llvm.experimental.gc.relocate.v3p1i8(token, i32, i32)
declare <4 x i8 addrspace(1)*> @llvm.experimental.gc.relocate.v4p1i8(token, i32, i32)
declare <256 x i8 addrspace(1)*> @llvm.experimental.gc.relocate.v256p1i8(token, i32, i32)
declare <257 x i8 addrspace(1)*> @llvm.experimental.gc.relocate.v257p1i8(token, i32, i32)

; Two objects, a pointer into each, and one object by itself: pairs of two pointers and of one in one frame.
define <2 x i8 addrspace(1)*> @two(<2 x i8 addrspace(1)*> %objects, <2 x i64> %by, i8 addrspace(1)* %other)
    gc "statepoint-example" {
  %inside = getelementptr i8, <2 x i8 addrspace(1)*> %objects, <2 x i64> %by
  %call = call token (i64, i32, void ()*, i32, i32, ...) @llvm.experimental.gc.statepoint.p0f_isVoidf(i64 2, i32 0,
    void ()* @collect, i32 0, i32 0, i32 0, i32 0)
    ["gc-live"(<2 x i8 addrspace(1)*> %objects, <2 x i8 addrspace(1)*> %inside, i8 addrspace(1)* %other)]
  %new = call <2 x i8 addrspace(1)*> @llvm.experimental.gc.relocate.v2p1i8(token %call, i32 0, i32 1)
  %other.new = call i8 addrspace(1)* @llvm.experimental.gc.relocate.p1i8(token %call, i32 2, i32 2)
  %base = call <2 x i8 addrspace(1)*> @llvm.experimental.gc.relocate.v2p1i8(token %call, i32 0, i32 0)
  %one = extractelement <2 x i8 addrspace(1)*> %base, i32 1
  store volatile i8 1, i8 addrspace(1)* %one
  store volatile i8 2, i8 addrspace(1)* %other.new
  ret <2 x i8 addrspace(1)*> %new
}

; Three pointers, 24 bytes; between the slots 8 bytes are free.
define void @three(<3 x i8 addrspace(1)*>* %at, <3 x i64> %by) "no-realign-stack" gc "statepoint-example" {
  %objects = load <3 x i8 addrspace(1)*>, <3 x i8 addrspace(1)*>* %at, align 8
  %inside = getelementptr i8, <3 x i8 addrspace(1)*> %objects, <3 x i64> %by
  %call = call token (i64, i32, void ()*, i32, i32, ...) @llvm.experimental.gc.statepoint.p0f_isVoidf(i64 3, i32 0,
    void ()* @collect, i32 0, i32 0, i32 0, i32 0)
    ["gc-live"(<3 x i8 addrspace(1)*> %objects, <3 x i8 addrspace(1)*> %inside)]
  %new = call <3 x i8 addrspace(1)*> @llvm.experimental.gc.relocate.v3p1i8(token %call, i32 0, i32 1)
  store <3 x i8 addrspace(1)*> %new, <3 x i8 addrspace(1)*>* %at, align 8
  ret void
}

; Four pointers. The two functions differ in "no-realign-stack" only.
define void @four(<4 x i8 addrspace(1)*>* %at, <4 x i64> %by) "no-realign-stack" gc "statepoint-example" {
  %objects = load <4 x i8 addrspace(1)*>, <4 x i8 addrspace(1)*>* %at, align 8
  %inside = getelementptr i8, <4 x i8 addrspace(1)*> %objects, <4 x i64> %by
  %call = call token (i64, i32, void ()*, i32, i32, ...) @llvm.experimental.gc.statepoint.p0f_isVoidf(i64 4, i32 0,
    void ()* @collect, i32 0, i32 0, i32 0, i32 0)
    ["gc-live"(<4 x i8 addrspace(1)*> %objects, <4 x i8 addrspace(1)*> %inside)]
  %new = call <4 x i8 addrspace(1)*> @llvm.experimental.gc.relocate.v4p1i8(token %call, i32 0, i32 1)
  %base = call <4 x i8 addrspace(1)*> @llvm.experimental.gc.relocate.v4p1i8(token %call, i32 0, i32 0)
  %one = extractelement <4 x i8 addrspace(1)*> %base, i32 3
  store volatile i8 1, i8 addrspace(1)* %one
  store <4 x i8 addrspace(1)*> %new, <4 x i8 addrspace(1)*>* %at, align 8
  ret void
}

define void @aligned(<4 x i8 addrspace(1)*>* %at, <4 x i64> %by) gc "statepoint-example" {
  %objects = load <4 x i8 addrspace(1)*>, <4 x i8 addrspace(1)*>* %at, align 8
  %inside = getelementptr i8, <4 x i8 addrspace(1)*> %objects, <4 x i64> %by
  %call = call token (i64, i32, void ()*, i32, i32, ...) @llvm.experimental.gc.statepoint.p0f_isVoidf(i64 5, i32 0,
    void ()* @collect, i32 0, i32 0, i32 0, i32 0)
    ["gc-live"(<4 x i8 addrspace(1)*> %objects, <4 x i8 addrspace(1)*> %inside)]
  %new = call <4 x i8 addrspace(1)*> @llvm.experimental.gc.relocate.v4p1i8(token %call, i32 0, i32 1)
  store <4 x i8 addrspace(1)*> %new, <4 x i8 addrspace(1)*>* %at, align 8
  ret void
}

; 256 pointers in one pair, as many as a move takes.
define void @full(<256 x i8 addrspace(1)*>* %at, <256 x i64>* %by) "no-realign-stack" gc "statepoint-example" {
  %objects = load <256 x i8 addrspace(1)*>, <256 x i8 addrspace(1)*>* %at, align 8
  %distances = load <256 x i64>, <256 x i64>* %by, align 8
  %inside = getelementptr i8, <256 x i8 addrspace(1)*> %objects, <256 x i64> %distances
  %call = call token (i64, i32, void ()*, i32, i32, ...) @llvm.experimental.gc.statepoint.p0f_isVoidf(i64 6, i32 0,
    void ()* @collect, i32 0, i32 0, i32 0, i32 0)
    ["gc-live"(<256 x i8 addrspace(1)*> %objects, <256 x i8 addrspace(1)*> %inside)]
  %new = call <256 x i8 addrspace(1)*> @llvm.experimental.gc.relocate.v256p1i8(token %call, i32 0, i32 1)
  store <256 x i8 addrspace(1)*> %new, <256 x i8 addrspace(1)*>* %at, align 8
  ret void
}

; With a null pair beside them they are 257: too many.
define i8 addrspace(1)* @beyond(<256 x i8 addrspace(1)*>* %at) "no-realign-stack" gc "statepoint-example" {
  %objects = load <256 x i8 addrspace(1)*>, <256 x i8 addrspace(1)*>* %at, align 8
  %call = call token (i64, i32, void ()*, i32, i32, ...) @llvm.experimental.gc.statepoint.p0f_isVoidf(i64 7, i32 0,
    void ()* @collect, i32 0, i32 0, i32 0, i32 0)
    ["gc-live"(<256 x i8 addrspace(1)*> %objects, i8 addrspace(1)* null)]
  %new = call <256 x i8 addrspace(1)*> @llvm.experimental.gc.relocate.v256p1i8(token %call, i32 0, i32 0)
  %null = call i8 addrspace(1)* @llvm.experimental.gc.relocate.p1i8(token %call, i32 1, i32 1)
  store <256 x i8 addrspace(1)*> %new, <256 x i8 addrspace(1)*>* %at, align 8
  ret i8 addrspace(1)* %null
}

; 257 pointers in one pair: a size that no pair may have. The pair of one pointer beside it is well formed.
define i8 addrspace(1)* @long(<257 x i8 addrspace(1)*>* %at, i8 addrspace(1)* %other) "no-realign-stack"
    gc "statepoint-example" {
  %objects = load <257 x i8 addrspace(1)*>, <257 x i8 addrspace(1)*>* %at, align 8
  %call = call token (i64, i32, void ()*, i32, i32, ...) @llvm.experimental.gc.statepoint.p0f_isVoidf(i64 8, i32 0,
    void ()* @collect, i32 0, i32 0, i32 0, i32 0)
    ["gc-live"(<257 x i8 addrspace(1)*> %objects, i8 addrspace(1)* %other)]
  %new = call <257 x i8 addrspace(1)*> @llvm.experimental.gc.relocate.v257p1i8(token %call, i32 0, i32 0)
  %other.new = call i8 addrspace(1)* @llvm.experimental.gc.relocate.p1i8(token %call, i32 1, i32 1)
  store <257 x i8 addrspace(1)*> %new, <257 x i8 addrspace(1)*>* %at, align 8
  ret i8 addrspace(1)* %other.new
}

; By LLVM's own pass: which two objects they are is known only when the program runs, and the pass finds the bases.
define <2 x i8 addrspace(1)*> @chosen(<2 x i8 addrspace(1)*> %one, <2 x i8 addrspace(1)*> %two, i1 %odd, <2 x i64> %by)
    gc "statepoint-example" {
  %in.one = getelementptr i8, <2 x i8 addrspace(1)*> %one, <2 x i64> %by
  %in.two = getelementptr i8, <2 x i8 addrspace(1)*> %two, <2 x i64> <i64 8, i64 24>
  %chosen = select i1 %odd, <2 x i8 addrspace(1)*> %in.one, <2 x i8 addrspace(1)*> %in.two
  call void @collect() "statepoint-id"="9"
  ret <2 x i8 addrspace(1)*> %chosen
}
