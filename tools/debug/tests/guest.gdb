set pagination off
set confirm off
set width 0
set schedule-multiple on
file {work}/guest.elf
add-inferior -exec {work}/guest.elf
add-inferior -exec {work}/guest.guest.elf
target remote | python3 {top}/tools/debug {work}/guest.nova --program {program}
continue
monitor turn
break on_fault
continue
monitor turn
info threads
continue
continue
monitor turn
info threads
x/8xw 0xfffff000
next
next
next
print/x address
print page
thread 3.1
backtrace
x/i $pc
delete
monitor stop raise
reverse-continue
monitor turn
info threads
monitor delegations 16
monitor unstop
thread 3.1
stepi
x/xw $sp + 12
monitor turn
monitor delegations 16
reverse-stepi
monitor turn
reverse-stepi
monitor turn
break on_fault
continue
monitor turn
next
reverse-next
monitor turn
delete
finish
tbreak put_word
continue
backtrace
print/x word
finish
monitor console
thread 1.1
reverse-continue
monitor turn
monitor goto 759
maintenance flush register-cache
continue
info threads
kill
