module uimg

go 1.19
