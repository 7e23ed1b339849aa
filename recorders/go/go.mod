module monitor.example/record

go 1.19
