# 16 MiB of empty comments, and then one byte more
yes '#' | head -c 16777216
printf '#'
