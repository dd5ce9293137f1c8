set pagination off
set confirm off
set width 0
set schedule-multiple on
file {work}/guest.elf
add-inferior -exec {work}/guest.elf
add-inferior -exec {work}/guest.guest.elf
target remote | python3 {top}/tools/debug {work}/guest.nova --program {program}
continue
continue
break on_fault
continue
monitor turn
monitor goto 0
maintenance flush register-cache
info threads
continue
monitor turn
info threads
monitor goto 0
maintenance flush register-cache
thread 3.1
reverse-continue
monitor turn
continue
monitor turn
continue
monitor turn
kill
