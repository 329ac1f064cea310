# 4,096 rows in one write, then one row more, then 4,097 rows of which the last has no trigger, then none.
wide="1 0 0 2"
for _ in 1 2 3 4 5 6 7 8; do
    wide="$wide $wide"
done
rows() {
    for _ in $(seq 16); do
        echo "0 C 1 $wide"
    done
}
echo '0 C 1 SEQ1.TABLE<'
rows
echo '0 C 1'
echo '0 C 1 SEQ1.TABLE.LENGTH?'
printf '0 C 1 %s\n' 'SEQ1.TABLE<<' '1 0 0 2'
echo '0 C 1'
echo '0 C 1 SEQ1.TABLE<'
rows
echo '0 C 1 851969 0 0 2'
echo '0 C 1'
echo '0 C 1 SEQ1.TABLE.LENGTH?'
echo '0 C 1 SEQ1.TABLE<<'
echo '0 C 1'
echo '0 C 1 SEQ1.TABLE.LENGTH?'
echo '0 E'
