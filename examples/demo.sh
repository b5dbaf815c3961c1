# The steps of `lomuveran demo`, in a folder in which there are a copy of the month and one of the gauges' blocks alone.
# shellcheck shell=sh
say "A month is a file of blocks of one width: here $(wc -l <month) lines of 40 bytes, a line a block. It begins:"
head -n 4 month
step mix 40 month || return
say '' 'In the mixed file the same blocks stand in a secret order (these name their spans, for you to see it). It begins:'
head -n 4 month.mixed
step show month.sheet || return
say 'Behind the word order stands the place to which the first block went (places count from 0), then that of the second, and so on.'
say '' 'The label says what was mixed into what, by SHA-256. It is as secret as the sheet, and is kept with it:'
cat month.label
say '' 'For thirty years, sheet and label may be a printed card:'
step card month.sheet || return
say '' 'Once a year, look whether all is as it was:'
step verify month.sheet || return
say '' 'Whoever brings the sheet gets the month back:'
step return month.mixed month.sheet month.back || return
head -n 4 month.back
cmp month month.back || return 3
say 'month.back is month, to the byte.'
say '' "Blocks of 6 bytes, each a gauge's number and a reading, have a chart: in a line the gauge, and of its readings the count, the" \
    'least, the greatest, the sum, the mean and the remainder. It needs no sheet: mixed, the blocks give the same.'
step chart gauges || return
step mix 6 gauges || return
step chart gauges.mixed || return
say '' 'What cannot be done is refused in words, with a status of its own:'
step mix 41 month 2>&1
say "(status $?)" '' 'These files were in a folder for the demonstration alone, which is removed now.'
