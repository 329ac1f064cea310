# a comment of three bytes, empty comments, and the end line
echo "#x"
yes "#" | head -c $((2 * 8388605))
echo "0 E"
