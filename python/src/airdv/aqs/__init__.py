"""From the files and answers of AQS to lines that airdv loads."""
