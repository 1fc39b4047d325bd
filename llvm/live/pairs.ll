; The two deepest functions, with their statepoints written out, so that each sort of pair is there at every level.
; An object is an array of words here: the next object, the side object, the number of values, the values.

declare token @llvm.experimental.gc.statepoint.p0f_isVoidf(i64, i32, void ()*, i32, i32, ...)
declare token @llvm.experimental.gc.statepoint.p0f_i64p1i64p1i64p1i64i64f(i64, i32,
  i64 (i64 addrspace(1)*, i64 addrspace(1)*, i64 addrspace(1)*, i64)*, i32, i32, ...)
declare i64 addrspace(1)* @llvm.experimental.gc.relocate.p1i64(token, i32, i32)
declare i64 @llvm.experimental.gc.result.i64(token)

; The harness: stops the thread, moves the heap, and returns.
declare void @live_stop()

; Takes three of its arguments from the frame of its caller, two objects among them, of which one lives over its own
; second call. Of its two calls, the first is no statepoint and has
; arguments in the frame, which -O2 pushes: with a frame pointer LLVM then takes RBP for the slots of all statepoints
; of this function.
define i64 @gather(i64 addrspace(1)* %node, i64 addrspace(1)* %side, i64 %depth, i64 %count, i64 %half, i64 %sum,
    i64 addrspace(1)* %nothing, i64 %before, i64 addrspace(1)* %handed) noinline gc "statepoint-example" {
  %blended = call i64 @blend(i64 %depth, i64 %count, i64 %half, i64 %sum, i64 %before, i64 5, i64 %half, i64 %count)
  %at = add i64 %half, 3
  %inside = getelementptr i64, i64 addrspace(1)* %node, i64 %at
  %call = call token (i64, i32, i64 (i64 addrspace(1)*, i64 addrspace(1)*, i64 addrspace(1)*, i64)*, i32, i32, ...)
    @llvm.experimental.gc.statepoint.p0f_i64p1i64p1i64p1i64i64f(i64 7, i32 0,
    i64 (i64 addrspace(1)*, i64 addrspace(1)*, i64 addrspace(1)*, i64)* @measure, i32 4, i32 0,
    i64 addrspace(1)* %node, i64 addrspace(1)* %side, i64 addrspace(1)* %nothing, i64 %at, i32 0, i32 0)
    ["gc-live"(i64 addrspace(1)* %node, i64 addrspace(1)* %inside, i64 addrspace(1)* %side,
               i64 addrspace(1)* %handed)]
  %measured = call i64 @llvm.experimental.gc.result.i64(token %call)
  %node.new = call i64 addrspace(1)* @llvm.experimental.gc.relocate.p1i64(token %call, i32 0, i32 0)
  %inside.new = call i64 addrspace(1)* @llvm.experimental.gc.relocate.p1i64(token %call, i32 0, i32 1)
  %side.new = call i64 addrspace(1)* @llvm.experimental.gc.relocate.p1i64(token %call, i32 2, i32 2)
  %handed.new = call i64 addrspace(1)* @llvm.experimental.gc.relocate.p1i64(token %call, i32 3, i32 3)
  %value = load i64, i64 addrspace(1)* %inside.new
  %side.count.at = getelementptr i64, i64 addrspace(1)* %side.new, i64 2
  %side.count = load i64, i64 addrspace(1)* %side.count.at
  %count.at = getelementptr i64, i64 addrspace(1)* %node.new, i64 2
  %count.new = load i64, i64 addrspace(1)* %count.at
  %a = mul i64 %measured, 31
  %b = add i64 %a, %value
  %c = mul i64 %b, 31
  %d = add i64 %c, %side.count
  %e = mul i64 %d, %count.new
  %handed.at = getelementptr i64, i64 addrspace(1)* %handed.new, i64 4
  %handed.value = load i64, i64 addrspace(1)* %handed.at
  %f = add i64 %e, %handed.value
  %g = xor i64 %f, %blended
  ret i64 %g
}

; No statepoint and no collector: only its arguments count.
define i64 @blend(i64 %a, i64 %b, i64 %c, i64 %d, i64 %e, i64 %f, i64 %g, i64 %h) noinline "gc-leaf-function" {
  %ab = mul i64 %a, %b
  %cd = mul i64 %c, %d
  %ef = mul i64 %e, %f
  %gh = mul i64 %g, %h
  %one = add i64 %ab, %cd
  %two = xor i64 %ef, %gh
  %sum = sub i64 %one, %two
  ret i64 %sum
}

; Calls the harness. The pairs: an object with itself, with a pointer into it, one past its end and one before its
; start; a pointer into another object that is itself not listed; a null known when the program runs, with itself
; and with a pointer derived from it; and a constant null. Before them there are three values that no move touches.
define i64 @measure(i64 addrspace(1)* %node, i64 addrspace(1)* %side, i64 addrspace(1)* %nothing, i64 %at) noinline
    gc "statepoint-example" {
  %count.at = getelementptr i64, i64 addrspace(1)* %node, i64 2
  %count = load i64, i64 addrspace(1)* %count.at
  %words = add i64 %count, 3
  %inside = getelementptr i64, i64 addrspace(1)* %node, i64 %at
  %end = getelementptr i64, i64 addrspace(1)* %node, i64 %words
  %ahead = getelementptr i64, i64 addrspace(1)* %node, i64 -4
  %beside = getelementptr i64, i64 addrspace(1)* %side, i64 3
  %nowhere = getelementptr i64, i64 addrspace(1)* %nothing, i64 %at
  %call = call token (i64, i32, void ()*, i32, i32, ...) @llvm.experimental.gc.statepoint.p0f_isVoidf(i64 8, i32 0,
    void ()* @live_stop, i32 0, i32 0, i32 0, i32 0)
    ["deopt"(i64 %at, i64 -7, i64 %words),
     "gc-live"(i64 addrspace(1)* %node, i64 addrspace(1)* %inside, i64 addrspace(1)* %end, i64 addrspace(1)* %ahead,
               i64 addrspace(1)* %side, i64 addrspace(1)* %beside, i64 addrspace(1)* %nothing,
               i64 addrspace(1)* %nowhere, i64 addrspace(1)* null)]
  %node.new = call i64 addrspace(1)* @llvm.experimental.gc.relocate.p1i64(token %call, i32 0, i32 0)
  %inside.new = call i64 addrspace(1)* @llvm.experimental.gc.relocate.p1i64(token %call, i32 0, i32 1)
  %end.new = call i64 addrspace(1)* @llvm.experimental.gc.relocate.p1i64(token %call, i32 0, i32 2)
  %ahead.new = call i64 addrspace(1)* @llvm.experimental.gc.relocate.p1i64(token %call, i32 0, i32 3)
  %beside.new = call i64 addrspace(1)* @llvm.experimental.gc.relocate.p1i64(token %call, i32 4, i32 5)
  %nothing.new = call i64 addrspace(1)* @llvm.experimental.gc.relocate.p1i64(token %call, i32 6, i32 6)
  %nowhere.new = call i64 addrspace(1)* @llvm.experimental.gc.relocate.p1i64(token %call, i32 6, i32 7)
  %null.new = call i64 addrspace(1)* @llvm.experimental.gc.relocate.p1i64(token %call, i32 8, i32 8)
  %last.at = getelementptr i64, i64 addrspace(1)* %end.new, i64 -1
  %first.at = getelementptr i64, i64 addrspace(1)* %ahead.new, i64 7
  %count.new.at = getelementptr i64, i64 addrspace(1)* %node.new, i64 2
  %last = load i64, i64 addrspace(1)* %last.at
  %first = load i64, i64 addrspace(1)* %first.at
  %count.new = load i64, i64 addrspace(1)* %count.new.at
  %value = load i64, i64 addrspace(1)* %inside.new
  %other = load i64, i64 addrspace(1)* %beside.new
  %is.nothing = icmp eq i64 addrspace(1)* %nothing.new, null
  %is.null = icmp eq i64 addrspace(1)* %null.new, null
  %nulls = and i1 %is.nothing, %is.null
  %nulls.number = zext i1 %nulls to i64
  %distance = ptrtoint i64 addrspace(1)* %nowhere.new to i64
  %a = mul i64 %last, 31
  %b = add i64 %a, %first
  %c = mul i64 %b, 31
  %d = add i64 %c, %value
  %e = mul i64 %d, 31
  %f = add i64 %e, %other
  %g = mul i64 %f, %count.new
  %h = add i64 %g, %nulls.number
  %i = mul i64 %h, 31
  %j = add i64 %i, %distance
  %k = xor i64 %j, %words
  ret i64 %k
}
