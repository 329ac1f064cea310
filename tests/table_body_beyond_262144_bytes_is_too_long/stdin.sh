# so many lines of 4,095 digits, of 4,096 bytes each
lines() { for ((i = 0; i < $1; i++)); do printf '1 C 1 %s\n' "$(printf '%4095s' | tr ' ' 1)"; done; }
printf '1 C 1 FOO.X<\n'; lines 64; printf '2 C 1\n'
printf '2 C 1 FOO.X<\n'; lines 64 | sed 's/^1 /2 /'; printf '2 C 1 1\n3 C 1\n'
printf '3 C 1 FOO.X<<\n'; lines 65 | sed 's/^1 /3 /'; printf '3 C 1 \t\n4 C 1\n'
printf '4 C 1 FOO.X<<B\n4 C 1 \t\n'; lines 65 | sed 's/^1 /4 /'; printf '5 C 1\n'
printf '5 C 1 TTLIN1.VAL?\n5 E\n'
