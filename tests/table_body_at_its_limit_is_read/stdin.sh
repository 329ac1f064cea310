# A table write whose body is 64 lines of 4,095 digits.
digits=$(printf '1%.0s' $(seq 4095))
echo '0 C 1 SEQ1.TABLE<'
for _ in $(seq 64); do
    echo "0 C 1 $digits"
done
echo '0 C 1'
echo '0 E'
