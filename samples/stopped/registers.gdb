# As session.gdb, for a program that keeps pointers in registers: image and registers are restored in one step, and put back.
break stop
run
treskibben-save saved
set {int}&move_wanted = 1
tbreak moved
continue
shell treskibben restore --section saved/0.section --image saved/image --into saved/moved --first $(cat saved/first) --moves moves --frames saved/0.frames
treskibben-load saved/moved
continue
