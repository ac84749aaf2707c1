module ripsawbean

go 1.19
