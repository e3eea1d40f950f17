// What lists_bench does, by fxamacker/cbor; of its lists those of types that Go has.
package main

import (
	"bufio"
	"bytes"
	"io"
	"os"

	"github.com/fxamacker/cbor"
)

type triple struct {
	_      struct{} `cbor:",toarray"`
	Number uint32
	Flag   bool
	Text   string
}

type byNames struct {
	Spam uint32 `cbor:"spam"`
	Eggs uint32 `cbor:"eggs"`
}

type byNumbers struct {
	Spam uint32 `cbor:"0,keyasint"`
	Eggs uint32 `cbor:"1,keyasint"`
}

// Gives at most seven bytes a call.
type sevens struct{ reader io.Reader }

func (s sevens) Read(buf []byte) (int, error) {
	if len(buf) > 7 {
		buf = buf[:7]
	}
	return s.reader.Read(buf)
}

func read[T any](task byte, item []byte) (list []T, err error) {
	switch task {
	case 2:
		err = cbor.NewDecoder(bufio.NewReader(bytes.NewReader(item))).Decode(&list)
	case 3:
		err = cbor.NewDecoder(sevens{bytes.NewReader(item)}).Decode(&list)
	default:
		err = cbor.Unmarshal(item, &list)
	}
	return list, err
}

func write[T any](task byte, list []T) (err error) {
	switch task {
	case 1:
		_, err = cbor.Marshal(list)
	case 4:
		var written bytes.Buffer
		writer := bufio.NewWriter(&written)
		if err = cbor.NewEncoder(writer).Encode(list); err == nil {
			err = writer.Flush()
		}
	}
	return err
}

func turns[T any](task, times byte, item []byte) error {
	for turn := byte(0); turn < times; turn++ {
		list, err := read[T](task, item)
		if err == nil {
			err = write(task, list)
		}
		if err != nil {
			return err
		}
	}
	return nil
}

func answer(task, times, kind byte, item []byte) error {
	switch kind {
	case 'b':
		return turns[bool](task, times, item)
	case 'o':
		return turns[*uint8](task, times, item)
	case 'i':
		return turns[int64](task, times, item)
	case 'u':
		return turns[uint32](task, times, item)
	case 's', 'S':
		return turns[string](task, times, item)
	case 'f':
		return turns[float64](task, times, item)
	case 't':
		return turns[triple](task, times, item)
	case 'p':
		return turns[byNames](task, times, item)
	case 'P':
		return turns[byNumbers](task, times, item)
	}
	os.Exit(2)
	return nil
}

func main() {
	input, err := io.ReadAll(os.Stdin)
	if err != nil || len(input) < 3 || input[0] > 4 {
		os.Exit(2)
	}
	if answer(input[0], input[1], input[2], input[3:]) != nil {
		os.Exit(1)
	}
}
