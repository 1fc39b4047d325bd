; Two functions that keep pointers over a call: `outer` waits for `inner`, and `inner` for `stop`, where gdb stops the program.
; opt's pass rewrite-statepoints-for-gc makes the two calls statepoints.

declare void @stop()

; The first word of the object plus the word number `at`, by a pointer into the object that was made before the stop.
define i64 @inner(i64 addrspace(1)* %object, i64 %at) noinline gc "statepoint-example" {
  %inside = getelementptr i64, i64 addrspace(1)* %object, i64 %at
  call void @stop()
  %first = load i64, i64 addrspace(1)* %object
  %word = load i64, i64 addrspace(1)* %inside
  %sum = add i64 %first, %word
  ret i64 %sum
}

; That, plus the word before.
define i64 @outer(i64 addrspace(1)* %object, i64 %at) noinline gc "statepoint-example" {
  %less = sub i64 %at, 1
  %before = getelementptr i64, i64 addrspace(1)* %object, i64 %less
  %some = call i64 @inner(i64 addrspace(1)* %object, i64 %at)
  %word = load i64, i64 addrspace(1)* %before
  %sum = add i64 %some, %word
  ret i64 %sum
}
