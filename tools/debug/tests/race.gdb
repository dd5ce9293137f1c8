set pagination off
set confirm off
set width 0
set architecture riscv:rv32
set osabi none
file {work}/race.elf
target remote | python3 {top}/tools/debug {top}/examples/race.nova {top}/examples/race.order --program {program}
continue
monitor console
awatch *(int*)0x1000
reverse-continue
monitor turn
x/i $pc
reverse-continue
monitor turn
x/i $pc
print $t1
reverse-continue
monitor turn
info threads
reverse-continue
monitor turn
x/i $pc
reverse-continue
monitor turn
x/i $pc
reverse-continue
delete
monitor until 40
continue
monitor turn
monitor event
monitor semaphores
set var $t1 = 5
