set pagination off
set confirm off
set width 0
file {work}/sort.elf
target remote | python3 {top}/tools/debug {work}/sort.nova --one --program {program}
break sort
continue
monitor turn
info threads
backtrace
print count
next
next
info locals
watch numbers[2]
continue
monitor turn
print numbers
delete
break put_decimal if number < 0
continue
backtrace
finish
monitor console
delete
watch numbers[0]
reverse-continue
reverse-continue
monitor turn
reverse-stepi
reverse-step
monitor turn
stepi
monitor event
reverse-finish
delete
continue
info threads
kill
