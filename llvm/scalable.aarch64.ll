; A vector of a length that only the machine knows lives over a call. The stack size that LLVM 14 records leaves it out. With
; a frame pointer, a slot that LLVM puts among the saved registers is addressed by it, and lies above what the stack size
; covers.

declare void @collect()

define i64 @among(i64 addrspace(1)* %object, <vscale x 2 x i64> %vector) "target-features"="+sve"
    gc "statepoint-example" {
  call void @collect() "statepoint-id"="1"
  %first = load i64, i64 addrspace(1)* %object
  %second = extractelement <vscale x 2 x i64> %vector, i32 0
  %both = add i64 %first, %second
  ret i64 %both
}

; A number that lives over the call is among the saved registers, and the slot is not.
define i64 @below(i64 addrspace(1)* %object, i64 %number, <vscale x 2 x i64> %vector) "target-features"="+sve"
    gc "statepoint-example" {
  call void @collect() "statepoint-id"="2"
  %first = load i64, i64 addrspace(1)* %object
  %second = extractelement <vscale x 2 x i64> %vector, i32 0
  %both = add i64 %first, %second
  %all = xor i64 %both, %number
  ret i64 %all
}
