printf '1 C 1 SEQ1.\tTABLE<\n1 C 1 *ECHO a?\n'
printf '2 C 1 %s<\n2 C 1 *ECHO b?\n' "$(printf '%4096s' | tr ' ' x)"
printf '3 C 1 SEQ1.TABLE<x\n3 C 1 *ECHO c?\n'
printf '4 C 1 SEQ1.TABLE<BB\n4 C 1 *ECHO d?\n'
printf '5 C 1 SEQ1.TABLE<<<\n5 C 1 *ECHO e?\n'
printf '6 C 1 SEQ1.TABLE< \n6 C 1 *ECHO f?\n'
printf '7 C 1 *ECHO a<?\n7 C 1 *ECHO g?\n7 E\n'
