package yoyoash

import (
	"encoding/binary"
	"fmt"
	"math/big"
)

// Terms of the store have these types, or are an int or a *big.Int. A string or []byte is a binary, which is read as a string.
// The atoms true and false are a bool.
type (
	Atom  string
	Pid   uint32
	Table uint32
	Tuple []any
	List  []any
)

// node is the node of the store's identifiers.
const node = "\x77\x0dnonode@nohost"

var u32 = binary.BigEndian.AppendUint32

// encode appends the bytes of a term in Erlang's External Term Format.
func encode(out []byte, term any) ([]byte, error) {
	switch it := term.(type) {
	case int:
		return encodeInteger(out, big.NewInt(int64(it)))
	case *big.Int:
		return encodeInteger(out, it)
	case bool:
		return encode(out, Atom(fmt.Sprint(it)))
	case Atom:
		if len(it) > 255 {
			return nil, fmt.Errorf("an atom of %d characters", len(it))
		}
		return append(append(out, 119, byte(len(it))), it...), nil
	case string:
		return append(u32(append(out, 109), uint32(len(it))), it...), nil
	case []byte:
		return encode(out, string(it))
	case Pid:
		return append(u32(append(append(out, 88), node...), uint32(it)), make([]byte, 8)...), nil
	case Table:
		return u32(u32(append(append(out, 90, 0, 1), node...), 0), uint32(it)), nil
	case Tuple:
		return encodeAll(u32(append(out, 105), uint32(len(it))), it)
	case List:
		out, err := encodeAll(u32(append(out, 108), uint32(len(it))), it)
		return append(out, 106), err
	}
	return nil, fmt.Errorf("not a term of the store: %T(%v)", term, term)
}

func encodeAll(out []byte, terms []any) (_ []byte, err error) {
	for _, it := range terms {
		if out, err = encode(out, it); err != nil {
			return nil, err
		}
	}
	return out, nil
}

func encodeInteger(out []byte, number *big.Int) ([]byte, error) {
	digits := number.Bytes()
	if len(digits) > 16 {
		return nil, fmt.Errorf("an integer of over 128 bits")
	}
	sign := byte(0)
	if number.Sign() < 0 {
		sign = 1
	}
	out = append(out, 110, byte(len(digits)), sign)
	for at := len(digits) - 1; at >= 0; at-- {
		out = append(out, digits[at])
	}
	return out, nil
}
