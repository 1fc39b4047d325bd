# A program is stopped, its heap and its frames moved, and it runs on.
break stop
run
treskibben-save saved
set {int}&move_wanted = 1
tbreak moved
continue
shell treskibben restore --section saved/0.section --image saved/image --output saved/new-image --first $(cat saved/first) --moves moves --frames saved/0.frames
restore saved/new-image binary $first
continue
