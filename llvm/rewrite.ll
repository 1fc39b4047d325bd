; Statepoints made by LLVM's own pass rewrite-statepoints-for-gc: nothing here names one. Pointers into objects
; live over calls in a loop, a choice between two objects (the pass finds the base itself), several pointers into
; one object, and a vector of pointers, whose locations hold two pointers each.

declare void @collect()
declare i8 addrspace(1)* @fetch(i8 addrspace(1)*)

; A loop with a running pointer into one object.
define i64 @sum(i64 addrspace(1)* %object, i64 %n) gc "statepoint-example" {
entry:
  %end = getelementptr i64, i64 addrspace(1)* %object, i64 %n
  br label %loop
loop:
  %p = phi i64 addrspace(1)* [%object, %entry], [%next, %loop]
  %total = phi i64 [0, %entry], [%more, %loop]
  call void @collect()
  %word = load i64, i64 addrspace(1)* %p
  %more = add i64 %total, %word
  %next = getelementptr i64, i64 addrspace(1)* %p, i64 1
  %done = icmp eq i64 addrspace(1)* %next, %end
  br i1 %done, label %out, label %loop
out:
  ret i64 %more
}

; A derived pointer whose object is known only when the program runs.
define i8 addrspace(1)* @choose(i8 addrspace(1)* %one, i8 addrspace(1)* %two, i1 %c, i64 %n)
    gc "statepoint-example" {
  %inside = getelementptr i8, i8 addrspace(1)* %one, i64 %n
  %other = getelementptr i8, i8 addrspace(1)* %two, i64 16
  %chosen = select i1 %c, i8 addrspace(1)* %inside, i8 addrspace(1)* %other
  call void @collect() ["deopt"(i64 %n, i64 1099511627776)]
  store volatile i8 1, i8 addrspace(1)* %chosen
  %got = call i8 addrspace(1)* @fetch(i8 addrspace(1)* %chosen)
  store volatile i8 1, i8 addrspace(1)* %two
  ret i8 addrspace(1)* %got
}

; Three pointers into one object. Where that is cheaper, the pass computes one again after the call.
define void @several(i8 addrspace(1)* %object, i64 %a, i64 %b, i64 %c) gc "statepoint-example" {
  %one = getelementptr i8, i8 addrspace(1)* %object, i64 %a
  %two = getelementptr i8, i8 addrspace(1)* %one, i64 %b
  %three = getelementptr i8, i8 addrspace(1)* %two, i64 %c
  store volatile i8 0, i8 addrspace(1)* %three
  call void @collect() "statepoint-id"="17"
  store volatile i8 1, i8 addrspace(1)* %one
  store volatile i8 2, i8 addrspace(1)* %two
  store volatile i8 3, i8 addrspace(1)* %three
  ret void
}

; A vector of pointers: its locations have size 16.
define <2 x i8 addrspace(1)*> @vector(<2 x i8 addrspace(1)*> %objects) gc "statepoint-example" {
  call void @collect()
  ret <2 x i8 addrspace(1)*> %objects
}
