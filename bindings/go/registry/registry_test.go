package registry

import "testing"

func TestOpen(t *testing.T) {
	registry, err := Open()
	if err != nil {
		t.Fatal(err)
	}
	defer registry.Close()
	if info, _ := registry.Info(); info.FileDate != FileDate || info.Entries < 9000 {
		t.Error(info)
	}
	if text, err := registry.Canonical("zh-yue"); text != "yue" {
		t.Error(text, err)
	}
}
