# Splits pages of Markdown into their parts, one a line. A line has four columns, with tabs between: FILE:LINE, what it is
# (`paragraph`, `cell` or `heading`), for a cell the head of its column (else -), and the text. A list item and a quote are
# paragraphs. Code blocks are left out.

function end_paragraph() {
  if (text != "") print place "\tparagraph\t-\t" text
  text = ""
}

# The cells of a row of a table. The first row has the heads of the columns.
function split_row(row,   cells, count, i) {
  gsub(/\\\|/, "\001", row)
  sub(/^ *\|/, "", row)
  sub(/\| *$/, "", row)
  count = split(row, cells, "|")
  for (i = 1; i <= count; i++) {
    gsub(/\001/, "|", cells[i])
    gsub(/^ +| +$/, "", cells[i])
    if (!in_table) heads[i] = cells[i] == "" ? "-" : cells[i]
    if (cells[i] != "") print FILENAME ":" FNR "\tcell\t" heads[i] "\t" cells[i]
  }
  in_table = 1
}

FNR == 1 { end_paragraph(); in_code = in_table = 0 }
/^[ >]*(```|~~~)/ { end_paragraph(); in_code = !in_code; next }
in_code { next }
{ gsub(/\t/, " ") }
/^ *\|[ :|-]*$/ { next }
/^ *\|/ { end_paragraph(); split_row($0); next }
{ in_table = 0 }
/^ *>? *$/ { end_paragraph(); next }
/^#/ { end_paragraph(); print FILENAME ":" FNR "\theading\t-\t" $0; next }
/^ *>? *([-*+]|[0-9]+\.) / { end_paragraph() }
{
  if (text == "") place = FILENAME ":" FNR
  sub(/^ *>? *([-*+] |[0-9]+\. )?/, "")
  text = text == "" ? $0 : text " " $0
}
END { end_paragraph() }
