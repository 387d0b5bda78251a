package lepton

import (
	"bytes"
	"errors"
	"math"
	"sync"
	"testing"
)

// A grey picture; each of its blocks is two bits.
func photograph(rows, columns int, scan []byte) []byte {
	file := []byte{0xff, 0xd8, 0xff, 0xc0, 0, 11, 8, byte(rows >> 8), byte(rows), byte(columns >> 8), byte(columns), 1, 1, 0x11, 0}
	for _, class := range []byte{0, 0x10} {
		file = append(file, 0xff, 0xc4, 0, 20, class, 1)
		file = append(file, make([]byte, 16)...)
	}
	file = append(file, 0xff, 0xda, 0, 8, 1, 1, 0, 0, 0x3f, 0)
	file = append(file, scan...)
	return append(file, 0xff, 0xd9)
}

func flat() []byte { return photograph(512, 512, make([]byte, 1024)) }

// What a call gives that must give something.
func given(t *testing.T) func([]byte, error) []byte {
	return func(made []byte, err error) []byte {
		t.Helper()
		if err != nil {
			t.Fatal(err)
		}
		return made
	}
}

func same(t *testing.T, what string, came, wanted []byte) {
	t.Helper()
	if !bytes.Equal(came, wanted) {
		t.Errorf("%s: %d bytes, and not the %d", what, len(came), len(wanted))
	}
}

func refusedBy(t *testing.T, wanted string, err error) {
	t.Helper()
	if err == nil || err.Error() != wanted {
		t.Errorf("%v, and not %s", err, wanted)
	}
}

func TestThereAndBack(t *testing.T) {
	for _, file := range [][]byte{photograph(8, 8, []byte{0x3f}), flat(), photograph(4096, 4096, make([]byte, 65536))} {
		for _, segments := range []int{1, 8, 64} {
			must := given(t)
			container := must(Encode(file, segments))
			same(t, "decode", must(Decode(container, MostOfAFile)), file)
			same(t, "decode of this length", must(Decode(container, len(file))), file)
			if _, err := Decode(container, len(file)-1); err != ErrTooLong {
				t.Error(err)
			}
			if length, err := Length(container); err != nil || length != uint64(len(file)) {
				t.Error(length, err)
			}
			same(t, "migrate", must(Migrate(container)), container)
			placed := must(Index(container))
			same(t, "decode of version 5", must(Decode(placed, MostOfAFile)), file)
			for _, at := range [][2]int{{0, len(file)}, {0, 0}, {1, 2}, {len(file), len(file)}, {len(file) / 2, len(file) - 1}} {
				same(t, "range", must(ReadRange(placed, uint64(at[0]), uint64(at[1]))), file[at[0]:at[1]])
			}
		}
	}
}

func TestChunksAreTheFile(t *testing.T) {
	must, file, back := given(t), flat(), []byte(nil)
	for number := uint64(0); number < 4; number++ {
		back = append(back, must(Decode(must(Chunk(file, number, 300, 1)), 300))...)
	}
	same(t, "chunks", back, file)
	_, err := Chunk(file, 4, 300, 1)
	refusedBy(t, "lepton: refused 51 NoChunk", err)
	same(t, "one chunk", must(Decode(must(Chunk(file, 0, math.MaxUint64, 1)), MostOfAFile)), file)
}

func TestRefused(t *testing.T) {
	file := flat()
	progressive := append([]byte(nil), file...)
	progressive[3] = 0xc2
	for wanted, bytes := range map[string][]byte{
		"lepton: refused 1 NotJpeg":              nil,
		"lepton: refused 4 NotBaseline code 194": progressive,
		"lepton: refused 16 ScanCut at 700":      file[:700],
	} {
		_, err := Encode(bytes, 1)
		refusedBy(t, wanted, err)
		var refused *Refused
		if !errors.As(err, &refused) {
			t.Error(err)
		}
		_, err = Chunk(bytes, 0, 9, 1)
		refusedBy(t, wanted, err)
	}
	for _, segments := range []int{0, 65, 257, -1} {
		if _, err := Encode(file, segments); err != ErrBadCall {
			t.Error(err)
		}
		if _, err := Chunk(file, 0, 1, segments); err != ErrBadCall {
			t.Error(err)
		}
	}
	if _, err := Chunk(file, 0, 0, 1); err != ErrBadCall {
		t.Error(err)
	}
	container := given(t)(Encode(file, 1))
	placed := given(t)(Index(container))
	past := uint64(len(file)) + 1
	for _, at := range [][2]uint64{{0, past}, {past, past}, {0, math.MaxUint64}, {math.MaxUint64, 0}} {
		_, err := ReadRange(placed, at[0], at[1])
		refusedBy(t, "lepton: refused 54 RangeBad", err)
	}
	_, err := ReadRange(container, 0, 1)
	refusedBy(t, "lepton: refused 31 BoxVersion", err)
	_, err = Migrate(placed)
	refusedBy(t, "lepton: refused 31 BoxVersion", err)
}

func TestDamaged(t *testing.T) {
	container := given(t)(Encode(flat(), 1))
	cut := container[:len(container)-1]
	for _, call := range []func() ([]byte, error){
		func() ([]byte, error) { return Decode(cut, 9999) },
		func() ([]byte, error) { return Migrate(cut) },
		func() ([]byte, error) { return Index(cut) },
	} {
		_, err := call()
		refusedBy(t, "lepton: damaged: refused 32 BoxCut", err)
	}
	_, err := Length(nil)
	refusedBy(t, "lepton: damaged: refused 30 BoxMagic", err)
	header := append([]byte(nil), container...)
	header[41] = 0
	_, err = Decode(header, 9999)
	refusedBy(t, "lepton: damaged: refused 33 BoxHeader 1 NotJpeg", err)

	// The bytes before a fault in the second segment.
	file := photograph(4096, 4096, make([]byte, 65536))
	two := given(t)(Encode(file, 2))
	two[len(two)-1] ^= 0xff
	_, err = Decode(two, MostOfAFile)
	var damaged *Damaged
	if !errors.As(err, &damaged) {
		t.Fatal(err)
	}
	if place, has := damaged.Place(); place != 1 || !has {
		t.Error(damaged)
	}
	if len(damaged.Before) == 0 || len(damaged.Before) >= len(file) || !bytes.HasPrefix(file, damaged.Before) {
		t.Error(len(damaged.Before))
	}
}

func TestGoroutines(t *testing.T) {
	file := flat()
	var all sync.WaitGroup
	for number := 0; number < 50; number++ {
		all.Add(1)
		go func() {
			defer all.Done()
			container, err := Encode(file, 1)
			if err == nil {
				container, err = Decode(container, MostOfAFile)
			}
			if err != nil || !bytes.Equal(container, file) {
				t.Error(err)
			}
		}()
	}
	all.Wait()
}
