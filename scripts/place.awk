# The line and the column, both from 1, of the byte `place` of a text: `LINE COLUMN`. A place behind the last byte is at the end of
# the last line.
!found && place <= start + length($0) { found = NR; column = place - start + 1 }
{ start += length($0) + 1; lines = NR; width = length($0) }
END { if (found) print found, column; else print lines ? lines : 1, width + 1 }
