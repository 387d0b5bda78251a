package lepton

import (
	"errors"
	"fmt"
)

var (
	// ErrTooLong means that the answer has more bytes than may be.
	ErrTooLong = errors.New("lepton: the answer has too many bytes")
	// ErrBadCall means that the segments aren't 1 to 64, that a size is 0, or that a number is negative.
	ErrBadCall = errors.New("lepton: wrong arguments")
	// ErrNoMemory means that the library was out of memory; nothing was done.
	ErrNoMemory = errors.New("lepton: out of memory")
	// ErrOldProcessor means that the processor isn't an x86-64-v2; nothing was done.
	ErrOldProcessor = errors.New("lepton: the processor isn't an x86-64-v2")
)

// Refusal says why bytes aren't accepted, as the program's line does.
type Refusal struct {
	Number int    // 1 to 54
	Inner  int    // of number 33 the number of the header's refusal, to which the detail belongs; else 0
	Detail uint64 // the place, the marker's code or the segment, as the name says; else 0
}

// Refused is the error of bytes that aren't accepted: of Encode and Chunk, store the file as it is; of the others, the container is
// of another version (31), or the range isn't one of the file (54).
type Refused struct{ Refusal }

// Damaged is the error of a container that is damaged or foreign: raise an alarm.
type Damaged struct {
	Refusal
	Before []byte // what was decoded before the fault, never a whole answer
}

// Name returns the refusal's name, as TableBad.
func (r Refusal) Name() string { return refusals[r.Number].name }

// Place returns the place in the bytes, the marker's code or the segment, and whether the refusal has one.
func (r Refusal) Place() (uint64, bool) { return r.Detail, r.word() != "" }

// String returns the program's line without its name.
func (r Refusal) String() string {
	said := fmt.Sprintf("refused %d %s", r.Number, r.Name())
	if r.Inner != 0 {
		said += fmt.Sprintf(" %d %s", r.Inner, refusals[r.Inner].name)
	}
	if r.word() != "" {
		said += fmt.Sprintf(" %s %d", r.word(), r.Detail)
	}
	return said
}

func (r *Refused) Error() string { return "lepton: " + r.String() }

func (d *Damaged) Error() string { return "lepton: damaged: " + d.String() }

// The word before the detail, if there is one.
func (r Refusal) word() string {
	if r.Inner != 0 {
		return refusals[r.Inner].word
	}
	return refusals[r.Number].word
}

var refusals = map[int]struct{ name, word string }{
	1: {"NotJpeg", ""}, 2: {"HeaderCut", ""}, 3: {"MarkerBad", "at"}, 4: {"NotBaseline", "code"}, 5: {"LengthBad", "at"},
	6: {"FrameTwice", ""}, 7: {"PrecisionBad", ""}, 8: {"SizeZero", ""}, 9: {"ComponentsBad", ""}, 10: {"TableBad", "at"},
	11: {"NoFrame", ""}, 12: {"MultiScan", ""}, 13: {"ScanParams", ""}, 14: {"NoTable", ""}, 15: {"TooManyBlocks", ""},
	16: {"ScanCut", "at"}, 17: {"CodeBad", "at"}, 18: {"SymbolBad", "at"}, 19: {"RunPast", "at"}, 20: {"LooseZeros", "at"},
	21: {"DcRange", "at"}, 22: {"MarkerInScan", "at"}, 23: {"RestartBad", "at"}, 24: {"MixedPad", "at"},
	30: {"BoxMagic", ""}, 31: {"BoxVersion", ""}, 32: {"BoxCut", ""}, 33: {"BoxHeader", ""}, 34: {"BoxSegments", ""},
	35: {"BoxPad", ""}, 36: {"HandoverBad", "segment"}, 37: {"BoxLong", ""}, 38: {"HeaderLong", "at"}, 39: {"BoxChunk", ""},
	40: {"BlockCount", "segment"}, 41: {"DcRange", "segment"}, 42: {"DiffRange", "segment"}, 43: {"NoCode", "segment"},
	44: {"Seam", "segment"}, 45: {"StreamBad", "segment"}, 46: {"PadSpelling", ""}, 47: {"ChunkShort", ""},
	48: {"PlaceBad", "segment"}, 50: {"TooLong", ""}, 51: {"NoChunk", ""}, 52: {"ManyScans", ""}, 53: {"BoxPlaces", ""},
	54: {"RangeBad", ""},
}
