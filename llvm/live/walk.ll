; A program that walks objects, four functions deep and more, and is stopped on the way. Nothing here names a
; statepoint: LLVM's own pass rewrite-statepoints-for-gc makes one of each call and finds the bases itself.
;
; An object is: the next object or null, the side object or null, the number of values, the values.
%object = type { %object addrspace(1)*, %object addrspace(1)*, i64, [0 x i64] }

; The harness: stops the thread, moves the heap, and returns.
declare void @live_stop()
; In pairs.ll: three arguments are in the frame of the caller.
declare i64 @gather(%object addrspace(1)*, %object addrspace(1)*, i64, i64, i64, i64, %object addrspace(1)*, i64,
  %object addrspace(1)*)

; The entry. Two objects and a pointer into one of them live over the call.
define i64 @live_run(%object addrspace(1)* %root, i64 %seed) noinline gc "statepoint-example" {
  %side.field = getelementptr %object, %object addrspace(1)* %root, i64 0, i32 1
  %side = load %object addrspace(1)*, %object addrspace(1)* addrspace(1)* %side.field
  %index = and i64 %seed, 1
  %value = getelementptr %object, %object addrspace(1)* %root, i64 0, i32 3, i64 %index
  %seen = load i64, i64 addrspace(1)* %value
  %odd = trunc i64 %seed to i1
  %below = call i64 @choose(%object addrspace(1)* %root, %object addrspace(1)* %side, i1 %odd, i64 %seen)
    "statepoint-id"="1"
  %again = load i64, i64 addrspace(1)* %value
  %count.field = getelementptr %object, %object addrspace(1)* %side, i64 0, i32 2
  %count = load i64, i64 addrspace(1)* %count.field
  %next.field = getelementptr %object, %object addrspace(1)* %root, i64 0, i32 0
  %next = load %object addrspace(1)*, %object addrspace(1)* addrspace(1)* %next.field
  %next.count.field = getelementptr %object, %object addrspace(1)* %next, i64 0, i32 2
  %next.count = load i64, i64 addrspace(1)* %next.count.field
  %a = mul i64 %below, 31
  %b = add i64 %a, %again
  %c = mul i64 %b, 31
  %d = add i64 %c, %count
  %e = mul i64 %d, 31
  %f = add i64 %e, %next.count
  %g = xor i64 %f, %seed
  ret i64 %g
}

; A pointer into one of two objects: which one is known only when the program runs, and so is its base.
define i64 @choose(%object addrspace(1)* %one, %object addrspace(1)* %two, i1 %odd, i64 %start) noinline
    gc "statepoint-example" {
  %in.one = getelementptr %object, %object addrspace(1)* %one, i64 0, i32 3, i64 1
  %in.two = getelementptr %object, %object addrspace(1)* %two, i64 0, i32 3, i64 0
  %chosen = select i1 %odd, i64 addrspace(1)* %in.one, i64 addrspace(1)* %in.two
  %seen = load i64, i64 addrspace(1)* %chosen
  %sum = add i64 %start, %seen
  %below = call i64 @descend(%object addrspace(1)* %one, i64 0, i64 %sum) "statepoint-id"="2"
  %again = load i64, i64 addrspace(1)* %chosen
  %count.field = getelementptr %object, %object addrspace(1)* %two, i64 0, i32 2
  %count = load i64, i64 addrspace(1)* %count.field
  %a = mul i64 %below, 31
  %b = add i64 %a, %again
  %c = mul i64 %b, 31
  %d = add i64 %c, %count
  %e = xor i64 %d, %sum
  ret i64 %e
}

; Calls itself for the next object, and @gather at the last one. The object, its side object (or null), a pointer
; into it and one past its end live over the call, and three numbers, for which -O2 takes callee-saved registers.
define i64 @descend(%object addrspace(1)* %node, i64 %depth, i64 %sum) noinline gc "statepoint-example" {
entry:
  %next.field = getelementptr %object, %object addrspace(1)* %node, i64 0, i32 0
  %next = load %object addrspace(1)*, %object addrspace(1)* addrspace(1)* %next.field
  %side.field = getelementptr %object, %object addrspace(1)* %node, i64 0, i32 1
  %side = load %object addrspace(1)*, %object addrspace(1)* addrspace(1)* %side.field
  %count.field = getelementptr %object, %object addrspace(1)* %node, i64 0, i32 2
  %count = load i64, i64 addrspace(1)* %count.field
  %half = lshr i64 %count, 1
  %middle = getelementptr %object, %object addrspace(1)* %node, i64 0, i32 3, i64 %half
  %end = getelementptr %object, %object addrspace(1)* %node, i64 0, i32 3, i64 %count
  %seen = load i64, i64 addrspace(1)* %middle
  %seven = mul i64 %sum, 7
  %more = add i64 %seven, %seen
  %last = icmp eq %object addrspace(1)* %next, null
  br i1 %last, label %bottom, label %deeper
deeper:
  %below.depth = add i64 %depth, 1
  %deep = call i64 @descend(%object addrspace(1)* %next, i64 %below.depth, i64 %more) "statepoint-id"="3"
  br label %back
bottom:
  %low = call i64 @gather(%object addrspace(1)* %node, %object addrspace(1)* %side, i64 %depth, i64 %count, i64 %half,
    i64 %more, %object addrspace(1)* %next, i64 %sum, %object addrspace(1)* %side) "statepoint-id"="4"
  br label %back
back:
  %below = phi i64 [%deep, %deeper], [%low, %bottom]
  %no.side = icmp eq %object addrspace(1)* %side, null
  br i1 %no.side, label %loop, label %beside
beside:
  %side.value = getelementptr %object, %object addrspace(1)* %side, i64 0, i32 3, i64 0
  %beside.value = load i64, i64 addrspace(1)* %side.value
  br label %loop
loop:
  %p = phi i64 addrspace(1)* [%middle, %back], [%middle, %beside], [%p.next, %loop]
  %total = phi i64 [%below, %back], [%beside.value, %beside], [%total.next, %loop]
  %value = load i64, i64 addrspace(1)* %p
  %thrice = mul i64 %total, 3
  %total.next = add i64 %thrice, %value
  %p.next = getelementptr i64, i64 addrspace(1)* %p, i64 1
  %done = icmp eq i64 addrspace(1)* %p.next, %end
  br i1 %done, label %after, label %loop
after:
  %mixed = xor i64 %total.next, %below
  %scaled = mul i64 %mixed, %count
  %result = add i64 %scaled, %more
  %bit = and i64 %depth, 1
  %odd = icmp eq i64 %bit, 1
  br i1 %odd, label %again, label %out
again:
  %values = call i64 @sum(%object addrspace(1)* %node, i64 %result) "statepoint-id"="5"
  %again.count = load i64, i64 addrspace(1)* %count.field
  %with = mul i64 %values, %again.count
  %again.seen = load i64, i64 addrspace(1)* %middle
  %both = add i64 %with, %again.seen
  ret i64 %both
out:
  ret i64 %result
}

; Goes over the values with a running pointer and an end one past the object, and stops at the middle one.
define i64 @sum(%object addrspace(1)* %node, i64 %start) noinline gc "statepoint-example" {
entry:
  %count.field = getelementptr %object, %object addrspace(1)* %node, i64 0, i32 2
  %count = load i64, i64 addrspace(1)* %count.field
  %first = getelementptr %object, %object addrspace(1)* %node, i64 0, i32 3, i64 0
  %end = getelementptr %object, %object addrspace(1)* %node, i64 0, i32 3, i64 %count
  %half = lshr i64 %count, 1
  br label %loop
loop:
  %p = phi i64 addrspace(1)* [%first, %entry], [%p.next, %on]
  %i = phi i64 [0, %entry], [%i.next, %on]
  %total = phi i64 [%start, %entry], [%total.next, %on]
  %here = icmp eq i64 %i, %half
  br i1 %here, label %stop, label %on
stop:
  call void @live_stop() "statepoint-id"="6"
  br label %on
on:
  %value = load i64, i64 addrspace(1)* %p
  %five = mul i64 %total, 5
  %total.next = add i64 %five, %value
  %i.next = add i64 %i, 1
  %p.next = getelementptr i64, i64 addrspace(1)* %p, i64 1
  %done = icmp eq i64 addrspace(1)* %p.next, %end
  br i1 %done, label %out, label %loop
out:
  %count.again = load i64, i64 addrspace(1)* %count.field
  %result = xor i64 %total.next, %count.again
  ret i64 %result
}
