# the end line, empty comments up to 16 MiB, and a line that is none
echo "0 E"
yes "#" | head -c $((2 * 8388606))
echo "0 Q"
