; A program whose frames hold vectors of pointers over calls, four functions deep, with its statepoints written out: 2, 4,
; 3 and 256 pointers in one location. LLVM would align the frame where a vector is longer than 16 bytes, and its size would
; not be known: "no-realign-stack" forbids it.
;
; An object is an array of words here: the next object, the side object, the number of values, the values.

declare token @llvm.experimental.gc.statepoint.p0f_isVoidf(i64, i32, void ()*, i32, i32, ...)
declare token @llvm.experimental.gc.statepoint.p0f_i64p1i64i64f(i64, i32, i64 (i64 addrspace(1)*, i64)*, i32, i32, ...)
declare i64 addrspace(1)* @llvm.experimental.gc.relocate.p1i64(token, i32, i32)
declare <2 x i64 addrspace(1)*> @llvm.experimental.gc.relocate.v2p1i64(token, i32, i32)
declare <3 x i64 addrspace(1)*> @llvm.experimental.gc.relocate.v3p1i64(token, i32, i32)
declare <4 x i64 addrspace(1)*> @llvm.experimental.gc.relocate.v4p1i64(token, i32, i32)
declare <256 x i64 addrspace(1)*> @llvm.experimental.gc.relocate.v256p1i64(token, i32, i32)
declare i64 @llvm.experimental.gc.result.i64(token)

; The harness: stops the thread, moves the heap, and returns.
declare void @live_stop()

; The object that word %field of an object names.
define i64 addrspace(1)* @follow(i64 addrspace(1)* %object, i64 %field) "gc-leaf-function" {
  %at = getelementptr i64, i64 addrspace(1)* %object, i64 %field
  %cell = bitcast i64 addrspace(1)* %at to i64 addrspace(1)* addrspace(1)*
  %other = load i64 addrspace(1)*, i64 addrspace(1)* addrspace(1)* %cell
  ret i64 addrspace(1)* %other
}

; What was computed so far, with one more number.
define i64 @mix(i64 %sum, i64 %number) "gc-leaf-function" {
  %scaled = mul i64 %sum, 31
  %mixed = add i64 %scaled, %number
  ret i64 %mixed
}

; The entry. Two objects, a pointer one past the end of the one and one into the other: two pairs of two pointers, the
; first of each object with itself. The second object by itself is a pair of one.
define i64 @live_vectors(i64 addrspace(1)* %root, i64 %seed) noinline gc "statepoint-example" {
  %side = call i64 addrspace(1)* @follow(i64 addrspace(1)* %root, i64 1)
  %count.at = getelementptr i64, i64 addrspace(1)* %root, i64 2
  %count = load i64, i64 addrspace(1)* %count.at
  %words = add i64 %count, 3
  %both.one = insertelement <2 x i64 addrspace(1)*> undef, i64 addrspace(1)* %root, i32 0
  %both = insertelement <2 x i64 addrspace(1)*> %both.one, i64 addrspace(1)* %side, i32 1
  %by = insertelement <2 x i64> <i64 0, i64 4>, i64 %words, i32 0
  %inside = getelementptr i64, <2 x i64 addrspace(1)*> %both, <2 x i64> %by
  %call = call token (i64, i32, i64 (i64 addrspace(1)*, i64)*, i32, i32, ...)
    @llvm.experimental.gc.statepoint.p0f_i64p1i64i64f(i64 9, i32 0, i64 (i64 addrspace(1)*, i64)* @four, i32 2, i32 0,
    i64 addrspace(1)* %root, i64 %seed, i32 0, i32 0)
    ["gc-live"(<2 x i64 addrspace(1)*> %both, <2 x i64 addrspace(1)*> %inside, i64 addrspace(1)* %side)]
  %below = call i64 @llvm.experimental.gc.result.i64(token %call)
  %inside.new = call <2 x i64 addrspace(1)*> @llvm.experimental.gc.relocate.v2p1i64(token %call, i32 0, i32 1)
  %side.new = call i64 addrspace(1)* @llvm.experimental.gc.relocate.p1i64(token %call, i32 2, i32 2)
  %both.new = call <2 x i64 addrspace(1)*> @llvm.experimental.gc.relocate.v2p1i64(token %call, i32 0, i32 0)
  %end = extractelement <2 x i64 addrspace(1)*> %inside.new, i32 0
  %last.at = getelementptr i64, i64 addrspace(1)* %end, i64 -1
  %last = load i64, i64 addrspace(1)* %last.at
  %value.at = extractelement <2 x i64 addrspace(1)*> %inside.new, i32 1
  %value = load i64, i64 addrspace(1)* %value.at
  %root.new = extractelement <2 x i64 addrspace(1)*> %both.new, i32 0
  %root.count.at = getelementptr i64, i64 addrspace(1)* %root.new, i64 2
  %root.count = load i64, i64 addrspace(1)* %root.count.at
  %beside = extractelement <2 x i64 addrspace(1)*> %both.new, i32 1
  %side.value.at = getelementptr i64, i64 addrspace(1)* %beside, i64 3
  %side.value = load i64, i64 addrspace(1)* %side.value.at
  %side.count.at = getelementptr i64, i64 addrspace(1)* %side.new, i64 2
  %side.count = load i64, i64 addrspace(1)* %side.count.at
  %a = call i64 @mix(i64 %below, i64 %last)
  %b = call i64 @mix(i64 %a, i64 %value)
  %c = call i64 @mix(i64 %b, i64 %root.count)
  %d = call i64 @mix(i64 %c, i64 %side.value)
  %e = call i64 @mix(i64 %d, i64 %side.count)
  %f = xor i64 %e, %seed
  ret i64 %f
}

; Four pointers, of an object, of a null known when the program runs, of a side object and of the next object: one inside,
; one derived from null, one before its object's start and one inside. The bases are listed with themselves too.
define i64 @four(i64 addrspace(1)* %node, i64 %seed) noinline "no-realign-stack" gc "statepoint-example" {
  %next = call i64 addrspace(1)* @follow(i64 addrspace(1)* %node, i64 0)
  %side = call i64 addrspace(1)* @follow(i64 addrspace(1)* %node, i64 1)
  %nothing = call i64 addrspace(1)* @follow(i64 addrspace(1)* %side, i64 0)
  %one = insertelement <4 x i64 addrspace(1)*> undef, i64 addrspace(1)* %node, i32 0
  %two = insertelement <4 x i64 addrspace(1)*> %one, i64 addrspace(1)* %nothing, i32 1
  %three = insertelement <4 x i64 addrspace(1)*> %two, i64 addrspace(1)* %side, i32 2
  %all = insertelement <4 x i64 addrspace(1)*> %three, i64 addrspace(1)* %next, i32 3
  %derived = getelementptr i64, <4 x i64 addrspace(1)*> %all, <4 x i64> <i64 3, i64 7, i64 -2, i64 4>
  %call = call token (i64, i32, i64 (i64 addrspace(1)*, i64)*, i32, i32, ...)
    @llvm.experimental.gc.statepoint.p0f_i64p1i64i64f(i64 10, i32 0, i64 (i64 addrspace(1)*, i64)* @three, i32 2, i32 0,
    i64 addrspace(1)* %next, i64 %seed, i32 0, i32 0)
    ["deopt"(i64 %seed), "gc-live"(<4 x i64 addrspace(1)*> %all, <4 x i64 addrspace(1)*> %derived)]
  %below = call i64 @llvm.experimental.gc.result.i64(token %call)
  %new = call <4 x i64 addrspace(1)*> @llvm.experimental.gc.relocate.v4p1i64(token %call, i32 0, i32 1)
  %all.new = call <4 x i64 addrspace(1)*> @llvm.experimental.gc.relocate.v4p1i64(token %call, i32 0, i32 0)
  %first.at = extractelement <4 x i64 addrspace(1)*> %new, i32 0
  %first = load i64, i64 addrspace(1)* %first.at
  %nowhere = extractelement <4 x i64 addrspace(1)*> %new, i32 1
  %distance = ptrtoint i64 addrspace(1)* %nowhere to i64
  %ahead = extractelement <4 x i64 addrspace(1)*> %new, i32 2
  %third.at = getelementptr i64, i64 addrspace(1)* %ahead, i64 5
  %third = load i64, i64 addrspace(1)* %third.at
  %fourth.at = extractelement <4 x i64 addrspace(1)*> %new, i32 3
  %fourth = load i64, i64 addrspace(1)* %fourth.at
  %null = extractelement <4 x i64 addrspace(1)*> %all.new, i32 1
  %is.null = icmp eq i64 addrspace(1)* %null, null
  %null.number = zext i1 %is.null to i64
  %next.new = extractelement <4 x i64 addrspace(1)*> %all.new, i32 3
  %count.at = getelementptr i64, i64 addrspace(1)* %next.new, i64 2
  %count = load i64, i64 addrspace(1)* %count.at
  %a = call i64 @mix(i64 %below, i64 %first)
  %b = call i64 @mix(i64 %a, i64 %distance)
  %c = call i64 @mix(i64 %b, i64 %third)
  %d = call i64 @mix(i64 %c, i64 %fourth)
  %e = call i64 @mix(i64 %d, i64 %null.number)
  %f = call i64 @mix(i64 %e, i64 %count)
  ret i64 %f
}

; Three pointers, 24 bytes, of one object thrice, and a null pair. It is stopped itself after its call of @many.
define i64 @three(i64 addrspace(1)* %node, i64 %seed) noinline "no-realign-stack" gc "statepoint-example" {
  %one = insertelement <3 x i64 addrspace(1)*> undef, i64 addrspace(1)* %node, i32 0
  %two = insertelement <3 x i64 addrspace(1)*> %one, i64 addrspace(1)* %node, i32 1
  %all = insertelement <3 x i64 addrspace(1)*> %two, i64 addrspace(1)* %node, i32 2
  %derived = getelementptr i64, <3 x i64 addrspace(1)*> %all, <3 x i64> <i64 5, i64 4, i64 3>
  %call = call token (i64, i32, i64 (i64 addrspace(1)*, i64)*, i32, i32, ...)
    @llvm.experimental.gc.statepoint.p0f_i64p1i64i64f(i64 11, i32 0, i64 (i64 addrspace(1)*, i64)* @many, i32 2, i32 0,
    i64 addrspace(1)* %node, i64 %seed, i32 0, i32 0)
    ["gc-live"(<3 x i64 addrspace(1)*> %all, <3 x i64 addrspace(1)*> %derived, i64 addrspace(1)* null)]
  %below = call i64 @llvm.experimental.gc.result.i64(token %call)
  %null.1 = call i64 addrspace(1)* @llvm.experimental.gc.relocate.p1i64(token %call, i32 2, i32 2)
  %derived.1 = call <3 x i64 addrspace(1)*> @llvm.experimental.gc.relocate.v3p1i64(token %call, i32 0, i32 1)
  %all.1 = call <3 x i64 addrspace(1)*> @llvm.experimental.gc.relocate.v3p1i64(token %call, i32 0, i32 0)
  %again = call token (i64, i32, void ()*, i32, i32, ...) @llvm.experimental.gc.statepoint.p0f_isVoidf(i64 12, i32 0,
    void ()* @live_stop, i32 0, i32 0, i32 0, i32 0)
    ["gc-live"(<3 x i64 addrspace(1)*> %all.1, <3 x i64 addrspace(1)*> %derived.1)]
  %new = call <3 x i64 addrspace(1)*> @llvm.experimental.gc.relocate.v3p1i64(token %again, i32 0, i32 1)
  %all.new = call <3 x i64 addrspace(1)*> @llvm.experimental.gc.relocate.v3p1i64(token %again, i32 0, i32 0)
  %first.at = extractelement <3 x i64 addrspace(1)*> %new, i32 0
  %first = load i64, i64 addrspace(1)* %first.at
  %second.at = extractelement <3 x i64 addrspace(1)*> %new, i32 1
  %second = load i64, i64 addrspace(1)* %second.at
  %third.at = extractelement <3 x i64 addrspace(1)*> %new, i32 2
  %third = load i64, i64 addrspace(1)* %third.at
  %same = extractelement <3 x i64 addrspace(1)*> %all.new, i32 2
  %count.at = getelementptr i64, i64 addrspace(1)* %same, i64 2
  %count = load i64, i64 addrspace(1)* %count.at
  %is.null = icmp eq i64 addrspace(1)* %null.1, null
  %null.number = zext i1 %is.null to i64
  %a = call i64 @mix(i64 %below, i64 %first)
  %b = call i64 @mix(i64 %a, i64 %second)
  %c = call i64 @mix(i64 %b, i64 %third)
  %d = call i64 @mix(i64 %c, i64 %count)
  %e = call i64 @mix(i64 %d, i64 %null.number)
  ret i64 %e
}

; 256 pointers, as many as a frame may have. Their objects follow one another, from the first again after the last, and each
; points to a value of its object. The objects are not listed by themselves.
define i64 @many(i64 addrspace(1)* %first, i64 %seed) noinline "no-realign-stack" gc "statepoint-example" {
entry:
  %objects.at = alloca [256 x i64 addrspace(1)*], align 16
  %distances.at = alloca [256 x i64], align 16
  br label %fill
fill:
  %i = phi i64 [0, %entry], [%i.next, %fill]
  %object = phi i64 addrspace(1)* [%first, %entry], [%object.next, %fill]
  %count.at = getelementptr i64, i64 addrspace(1)* %object, i64 2
  %count = load i64, i64 addrspace(1)* %count.at
  %value = urem i64 %i, %count
  %distance = add i64 %value, 3
  %objects.cell = getelementptr [256 x i64 addrspace(1)*], [256 x i64 addrspace(1)*]* %objects.at, i64 0, i64 %i
  store i64 addrspace(1)* %object, i64 addrspace(1)** %objects.cell
  %distances.cell = getelementptr [256 x i64], [256 x i64]* %distances.at, i64 0, i64 %i
  store i64 %distance, i64* %distances.cell
  %next = call i64 addrspace(1)* @follow(i64 addrspace(1)* %object, i64 0)
  %last = icmp eq i64 addrspace(1)* %next, null
  %object.next = select i1 %last, i64 addrspace(1)* %first, i64 addrspace(1)* %next
  %i.next = add i64 %i, 1
  %filled = icmp eq i64 %i.next, 256
  br i1 %filled, label %stop, label %fill
stop:
  %objects.vector = bitcast [256 x i64 addrspace(1)*]* %objects.at to <256 x i64 addrspace(1)*>*
  %objects = load <256 x i64 addrspace(1)*>, <256 x i64 addrspace(1)*>* %objects.vector, align 16
  %distances.vector = bitcast [256 x i64]* %distances.at to <256 x i64>*
  %distances = load <256 x i64>, <256 x i64>* %distances.vector, align 16
  %derived = getelementptr i64, <256 x i64 addrspace(1)*> %objects, <256 x i64> %distances
  %call = call token (i64, i32, void ()*, i32, i32, ...) @llvm.experimental.gc.statepoint.p0f_isVoidf(i64 13, i32 0,
    void ()* @live_stop, i32 0, i32 0, i32 0, i32 0)
    ["gc-live"(<256 x i64 addrspace(1)*> %objects, <256 x i64 addrspace(1)*> %derived)]
  %new = call <256 x i64 addrspace(1)*> @llvm.experimental.gc.relocate.v256p1i64(token %call, i32 0, i32 1)
  store <256 x i64 addrspace(1)*> %new, <256 x i64 addrspace(1)*>* %objects.vector, align 16
  br label %sum
sum:
  %j = phi i64 [0, %stop], [%j.next, %sum]
  %total = phi i64 [%seed, %stop], [%total.next, %sum]
  %cell = getelementptr [256 x i64 addrspace(1)*], [256 x i64 addrspace(1)*]* %objects.at, i64 0, i64 %j
  %pointer = load i64 addrspace(1)*, i64 addrspace(1)** %cell
  %number = load i64, i64 addrspace(1)* %pointer
  %total.next = call i64 @mix(i64 %total, i64 %number)
  %j.next = add i64 %j, 1
  %summed = icmp eq i64 %j.next, 256
  br i1 %summed, label %out, label %sum
out:
  ret i64 %total.next
}
