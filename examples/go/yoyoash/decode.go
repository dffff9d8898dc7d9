package yoyoash

import (
	"encoding/binary"
	"fmt"
	"math/big"
)

// decode returns the term of a reply. Bytes that end too early are an error.
func decode(bytes []byte) (term any, err error) {
	defer func() {
		if fault := recover(); fault != nil {
			err = fmt.Errorf("not a term: %v", fault)
		}
	}()
	it := reader{bytes[1:]}
	return it.term(), nil
}

type reader struct{ rest []byte }

func (it *reader) take(count int) []byte {
	taken := it.rest[:count]
	it.rest = it.rest[count:]
	return taken
}

func (it *reader) count(bytes int) (count int) {
	for _, digit := range it.take(bytes) {
		count = count<<8 | int(digit)
	}
	return count
}

func (it *reader) row(count int) []any {
	terms := make([]any, 0, len(it.rest[:count]))
	for ; count > 0; count-- {
		terms = append(terms, it.term())
	}
	return terms
}

func (it *reader) term() any {
	switch tag := it.count(1); tag {
	case 97:
		return it.count(1)
	case 98:
		return int(int32(it.count(4)))
	case 110:
		return it.big(it.count(1), it.count(1))
	case 119:
		return named(string(it.take(it.count(1))))
	case 109:
		return string(it.take(it.count(4)))
	case 104:
		return Tuple(it.row(it.count(1)))
	case 105:
		return Tuple(it.row(it.count(4)))
	case 106:
		return List{}
	case 107:
		return it.codes(it.take(it.count(2)))
	case 108:
		list := List(it.row(it.count(4)))
		it.take(1)
		return list
	case 88:
		return Pid(binary.BigEndian.Uint32(it.take(27)[15:]))
	case 90:
		return Table(binary.BigEndian.Uint32(it.take(25)[21:]))
	default:
		panic(fmt.Sprintf("tag %d", tag))
	}
}

// named returns the atom of this name: true and false are a bool.
func named(name string) any {
	if name == "true" || name == "false" {
		return name == "true"
	}
	return Atom(name)
}

func (it *reader) codes(codes []byte) List {
	list := make(List, len(codes))
	for at, code := range codes {
		list[at] = int(code)
	}
	return list
}

func (it *reader) big(digits, sign int) any {
	number := new(big.Int)
	for at, digit := range it.take(digits) {
		number.Or(number, new(big.Int).Lsh(big.NewInt(int64(digit)), uint(8*at)))
	}
	if sign != 0 {
		number.Neg(number)
	}
	if number.IsInt64() {
		return int(number.Int64())
	}
	return number
}
