# empty comments, and the end line
yes '#' | head -c $((16777216 - 4))
echo '0 E'
