# What `airdv` prints, in base R. All is text, so that no digit is lost, and what is missing is NA:
#   source("samples/read.R")
#   report <- read_sheet(pipe("airdv report O3-2015 2024"), 2)
#   report$heads["year"]; report$rows[report$rows$verdict == "NotMet", ]
#   hours <- read_export(url("http://127.0.0.1:8080/export/06-037-1103/44201/2024"))

# A sheet, from a file or a command: a list of its heads and its rows. `heads` says how many lines of heads it has: 2 of a
# report, 6 of `show`. docs/USING.md has those of the others.
read_sheet <- function(from, heads) {
  lines <- readLines(from)
  words <- strsplit(lines[seq_len(heads)], " ", fixed = TRUE)
  values <- vapply(words, `[`, "", 2)
  names(values) <- vapply(words, `[`, "", 1)
  values[values == "-"] <- NA
  rows <- read.table(text = lines[-seq_len(heads)], header = TRUE, sep = " ", colClasses = "character", na.strings = "-")
  list(heads = values, rows = rows)
}

# The observations of `export`, from a file or an address. The null code NA stays a text.
read_export <- function(from) read.csv(from, colClasses = "character", na.strings = "")
