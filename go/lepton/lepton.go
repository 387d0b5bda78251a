// Package lepton makes JPEG files smaller without loss, and gives them back, by calls of liblepton (docs/EMBEDDING.md).
//
//	container, err := lepton.Encode(photograph, 1)
//	photograph, err = lepton.Decode(container, lepton.MostOfAFile)
//
// Each call works on one thread and keeps nothing; any number of goroutines may call at once. A call can't be interrupted.
//
// It links liblepton.a: CGO_LDFLAGS="-LFOLDER" names the folder where c/build made it.
package lepton

/*
#cgo CFLAGS: -I${SRCDIR}/../../include
#cgo LDFLAGS: -l:liblepton.a
#include "lepton.h"
*/
import "C"

import "unsafe"

const (
	// MostOfAFile is the most bytes of a file that is encoded: 64 MiB.
	MostOfAFile = 67_108_864
	// MostSegments is the most segments of a container.
	MostSegments = 64
)

// Which refusals of a call mean that a container is damaged or foreign.
type reads int

const (
	aFile reads = iota
	aContainer
	aContainerOfAVersion
)

// Encode returns the container of a JPEG file, of at most the given number of segments, 1 to 64. It may be longer than a small
// file. The error is a *Refused if the file isn't accepted: store it as it is.
func Encode(file []byte, segments int) ([]byte, error) {
	if segments < 1 || segments > MostSegments {
		return nil, ErrBadCall
	}
	return call(aFile, len(file)+4096, 8*len(file)+1<<20, func(out *C.uint8_t, room C.size_t, ending *C.struct_lepton_ending) {
		C.lepton_encode(C.uint8_t(segments), at(file), C.size_t(len(file)), out, room, ending)
	})
}

// Decode returns the file of a container, or the chunk that it has. The error is ErrTooLong if that has more than `most` bytes
// (no file that is encoded has more than MostOfAFile, but a crafted container of 148 bytes decodes to 134 MB), and a *Damaged
// if the container is damaged or foreign.
func Decode(container []byte, most int) ([]byte, error) {
	if most < 0 {
		return nil, ErrBadCall
	}
	return call(aContainer, least(2*len(container)+65536, most), most, func(out *C.uint8_t, room C.size_t, ending *C.struct_lepton_ending) {
		C.lepton_decode(at(container), C.size_t(len(container)), out, room, ending)
	})
}

// Migrate returns the same container, of version 1 or 2, in version 2. The error is a *Refused with 31 of another version.
func Migrate(container []byte) ([]byte, error) {
	return call(aContainerOfAVersion, len(container)+64, 2*len(container)+4096, func(out *C.uint8_t, room C.size_t, ending *C.struct_lepton_ending) {
		C.lepton_migrate(at(container), C.size_t(len(container)), out, room, ending)
	})
}

// Chunk returns the container of the file's bytes from index times size on, size of them or up to its end. The error is a *Refused
// if the file isn't accepted, with 51 if it ends before that place, and with 52 if it has several scans.
func Chunk(file []byte, index, size uint64, segments int) ([]byte, error) {
	if segments < 1 || segments > MostSegments {
		return nil, ErrBadCall
	}
	room := len(file)
	if size < uint64(room) {
		room = int(size)
	}
	return call(aFile, room+131072, 8*len(file)+1<<20, func(out *C.uint8_t, room C.size_t, ending *C.struct_lepton_ending) {
		C.lepton_chunk(C.uint64_t(index), C.uint64_t(size), C.uint8_t(segments), at(file), C.size_t(len(file)), out, room, ending)
	})
}

// Index returns the same container, of version 1, 2 or 5, in version 5, which ReadRange reads. The error is a *Refused with 31
// of another version.
func Index(container []byte) ([]byte, error) {
	return call(aContainerOfAVersion, len(container)+1024, 2*len(container)+4096, func(out *C.uint8_t, room C.size_t, ending *C.struct_lepton_ending) {
		C.lepton_index(at(container), C.size_t(len(container)), out, room, ending)
	})
}

// ReadRange returns the file's bytes from one place to before another, of a container of version 5. The error is a *Refused with
// 54 if the file has no such range and with 31 of another version, and ErrTooLong of more than MostOfAFile bytes.
func ReadRange(container []byte, from, to uint64) ([]byte, error) {
	room := 0
	if from < to {
		room = MostOfAFile
		if to-from < MostOfAFile {
			room = int(to - from)
		}
	}
	return call(aContainerOfAVersion, room, room, func(out *C.uint8_t, room C.size_t, ending *C.struct_lepton_ending) {
		C.lepton_range(C.uint64_t(from), C.uint64_t(to), at(container), C.size_t(len(container)), out, room, ending)
	})
}

// Length returns how many bytes Decode gives of this container. It takes as long as Decode, but no room.
func Length(container []byte) (uint64, error) {
	var ending C.struct_lepton_ending
	if C.lepton_length(at(container), C.size_t(len(container)), &ending) == C.LEPTON_DONE {
		return uint64(ending.wanted), nil
	}
	return 0, errorOf(ending, true, nil)
}

// What a call writes into room bytes, or into more, up to most, if that is too little.
func call(reads reads, room, most int, answer func(*C.uint8_t, C.size_t, *C.struct_lepton_ending)) ([]byte, error) {
	for {
		out := make([]byte, room)
		var ending C.struct_lepton_ending
		answer(at(out), C.size_t(room), &ending)
		out = out[:ending.length]
		if ending.status == C.LEPTON_DONE {
			return out, nil
		}
		if ending.status != C.LEPTON_NO_ROOM {
			isDamaged := reads == aContainer ||
				reads == aContainerOfAVersion && ending.number != 31 && ending.number != 54
			return nil, errorOf(ending, isDamaged, out)
		}
		// The room that is needed, if the call knows it.
		wanted := least(4*room+1, most)
		if ending.wanted > 0 {
			wanted = int(ending.wanted)
		}
		if wanted > most || wanted <= room {
			return nil, ErrTooLong
		}
		room = wanted
	}
}

// A slice's bytes for C: NULL if there are none.
func at(bytes []byte) *C.uint8_t {
	if len(bytes) == 0 {
		return nil
	}
	return (*C.uint8_t)(unsafe.Pointer(&bytes[0]))
}

func least(a, b int) int {
	if a < b {
		return a
	}
	return b
}

func errorOf(ending C.struct_lepton_ending, isDamaged bool, before []byte) error {
	refusal := Refusal{Number: int(ending.number), Inner: int(ending.inner), Detail: uint64(ending.detail)}
	switch {
	case ending.status == C.LEPTON_REFUSED && isDamaged:
		return &Damaged{refusal, before}
	case ending.status == C.LEPTON_REFUSED:
		return &Refused{refusal}
	case ending.status == C.LEPTON_NO_MEMORY:
		return ErrNoMemory
	case ending.status == C.LEPTON_OLD_PROCESSOR:
		return ErrOldProcessor
	}
	return ErrBadCall
}
