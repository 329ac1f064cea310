# so many bytes of this letter
many() { printf "%$1s" | tr ' ' "$2"; }
printf '1 C 1 FOO.X<\n2 C 1 %s\n3 C 1\n' "$(many 4096 x)"
printf '4 C 1 FOO.X<\n5 C 1 1 2 3 4\n5 C 1 %s\n6 C 1\n' "$(many 4097 x)"
printf '7 C 1 FOO.X<\n8 C 1 1\t2\n9 C 1\n'
printf '10 C 1 FOO.X<<B\n11 C 1 \377\n12 C 1 %s\n13 C 1 1 2 3 4\n14 C 1\n' "$(many 4097 x)"
printf '15 C 1 FOO.X<<\n16 C 1 %s\n17 C 1 \377\n18 C 1\n' "$(many 5000 1)"
printf '19 C 1 FOO.X<\n20 C 1 %s\t\n21 C 1\n' "$(many 4096 1)"
printf '22 C 1 TTLIN1.VAL?\n22 E\n'
