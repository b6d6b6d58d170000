module langtag.example/bcp47

go 1.19
