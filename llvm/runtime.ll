; The functions that the other files call. It has no stack map of its own and is linked to every other file,
; so that the calls and the addresses are real ones.

@sink = global i64 0

define void @collect() {
  store volatile i64 1, i64* @sink
  ret void
}

define i64 @measure(i64 %a, i64 %b) {
  %sum = add i64 %a, %b
  store volatile i64 %sum, i64* @sink
  ret i64 %sum
}

define i8 addrspace(1)* @fetch(i8 addrspace(1)* %object) {
  %word = ptrtoint i8 addrspace(1)* %object to i64
  store volatile i64 %word, i64* @sink
  ret i8 addrspace(1)* %object
}
