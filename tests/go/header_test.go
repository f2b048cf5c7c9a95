// The codec of `frame` beside the one of the specification's authors. `run` copies this file into their package, which keeps
// its header type to itself. The environment: CODEC is the command of codec.c, SPECS the folder of frame's definitions.
package yamux

import (
	"bufio"
	"bytes"
	"encoding/hex"
	"fmt"
	"io"
	"io/ioutil"
	"log"
	"math/rand"
	"os"
	"os/exec"
	"path/filepath"
	"strings"
	"testing"
)

const (
	randomHeaders = 50000
	pairs         = 1 << 16 // of version and type
)

type fields struct {
	msgType          uint8
	flags            uint16
	streamID, length uint32
}

func (f fields) String() string {
	return fmt.Sprintf("%d %d %d %d", f.msgType, f.flags, f.streamID, f.length)
}

// Their twelve bytes of the fields.
func written(f fields) header {
	h := header(make([]byte, headerSize))
	h.encode(f.msgType, f.flags, f.streamID, f.length)
	return h
}

// Their fields of twelve bytes.
func read(h header) fields {
	return fields{h.MsgType(), h.Flags(), h.StreamID(), h.Length()}
}

func inHex(h header) string {
	return hex.EncodeToString(h)
}

// Every flag word; every type with every set of the four flags and every pair of edges; and random ones.
func headers() []fields {
	edges := []uint32{0, 1, 2, 3, 255, 256, 65535, 65536, initialStreamWindow - 1, initialStreamWindow,
		initialStreamWindow + 1, 1<<24 - 1, 1 << 24, 0x01020304, 1<<31 - 1, 1 << 31, 1<<32 - 2, 1<<32 - 1}
	var all []fields
	for flags := 0; flags < 1<<16; flags++ {
		all = append(all, fields{uint8(flags/16) % 4, uint16(flags), 0x01020304, 0xfedcba98})
	}
	for msgType := typeData; msgType <= typeGoAway; msgType++ {
		for flags := uint16(0); flags <= flagSYN|flagACK|flagFIN|flagRST; flags++ {
			for _, id := range edges {
				for _, length := range edges {
					all = append(all, fields{msgType, flags, id, length})
				}
			}
		}
	}
	random := rand.New(rand.NewSource(1))
	for i := 0; i < randomHeaders; i++ {
		all = append(all, fields{uint8(random.Intn(4)), uint16(random.Uint32()), random.Uint32(), random.Uint32()})
	}
	return all
}

// A header of that version and type, all else 0, and the answer of their receiving loop, in our numbers.
func judged(version, msgType uint8) (header, string) {
	h := written(fields{msgType: msgType})
	h[0] = version
	s := &Session{
		logger:     log.New(ioutil.Discard, "", 0),
		bufRead:    bufio.NewReaderSize(bytes.NewReader(h), 16),
		recvDoneCh: make(chan struct{}),
	}
	switch err := s.recvLoop(); err {
	case ErrInvalidVersion:
		return h, "11 0 0 0 0"
	case ErrInvalidMsgType:
		return h, "12 0 0 0 0"
	case io.EOF:
		return h, "0 " + read(h).String()
	default:
		return h, err.Error()
	}
}

// The numbers of yamux_frame.h, by theirs.
func numbers() []string {
	return []string{
		fmt.Sprint("YAMUX_HEADER_SIZE ", headerSize),
		fmt.Sprint("YAMUX_DATA ", typeData),
		fmt.Sprint("YAMUX_WINDOW_UPDATE ", typeWindowUpdate),
		fmt.Sprint("YAMUX_PING ", typePing),
		fmt.Sprint("YAMUX_GO_AWAY ", typeGoAway),
		fmt.Sprint("YAMUX_SYN ", flagSYN),
		fmt.Sprint("YAMUX_ACK ", flagACK),
		fmt.Sprint("YAMUX_FIN ", flagFIN),
		fmt.Sprint("YAMUX_RST ", flagRST),
		fmt.Sprint("YAMUX_GO_AWAY_NORMAL ", goAwayNormal),
		fmt.Sprint("YAMUX_GO_AWAY_PROTOCOL_ERROR ", goAwayProtoErr),
		fmt.Sprint("YAMUX_GO_AWAY_INTERNAL_ERROR ", goAwayInternalErr),
		fmt.Sprint("YAMUX_INITIAL_WINDOW ", initialStreamWindow),
	}
}

// The lines of the definitions that have a number of theirs.
func definitions() []string {
	return []string{
		fmt.Sprint("tag_number Data = ", typeData),
		fmt.Sprint("tag_number WindowUpdate = ", typeWindowUpdate),
		fmt.Sprint("tag_number Ping = ", typePing),
		fmt.Sprint("tag_number GoAway = ", typeGoAway),
		fmt.Sprintf("syn = record { 0 = %d }", flagSYN),
		fmt.Sprintf("ack = record { 0 = %d }", flagACK),
		fmt.Sprintf("fin = record { 0 = %d }", flagFIN),
		fmt.Sprintf("rst = record { 0 = %d }", flagRST),
		fmt.Sprint("normal = ", goAwayNormal),
		fmt.Sprint("protocol_error = ", goAwayProtoErr),
		fmt.Sprint("internal_error = ", goAwayInternalErr),
		fmt.Sprint("initial_window = ", initialStreamWindow),
	}
}

// A line for CODEC, and the answer that theirs gives.
type question struct{ line, theirs string }

func questions() []question {
	var all []question
	for _, f := range headers() {
		bytes := inHex(written(f))
		all = append(all, question{f.String(), "0 " + bytes}, question{"=" + bytes, "0 " + f.String()})
	}
	for start := 0; start < pairs; start++ {
		h, theirs := judged(uint8(start>>8), uint8(start))
		all = append(all, question{"=" + inHex(h), theirs})
	}
	return all
}

// The lines that CODEC answers.
func answers(t *testing.T, all []question) *bufio.Scanner {
	var lines bytes.Buffer
	for _, q := range all {
		fmt.Fprintln(&lines, q.line)
	}
	words := strings.Fields(os.Getenv("CODEC"))
	command := exec.Command(words[0], words[1:]...)
	command.Stdin = &lines
	output, err := command.Output()
	if err != nil {
		t.Fatalf("codec: %v", err)
	}
	return bufio.NewScanner(bytes.NewReader(output))
}

func TestCodec(t *testing.T) {
	all := questions()
	ours := answers(t, all)
	for _, number := range numbers() {
		if ours.Scan(); ours.Text() != number {
			t.Fatalf("yamux_frame.h: theirs %q, ours %q", number, ours.Text())
		}
	}
	for _, q := range all {
		if ours.Scan(); ours.Text() != q.theirs {
			t.Fatalf("%s: theirs %q, ours %q", q.line, q.theirs, ours.Text())
		}
		if q.line[0] == '=' {
			continue
		}
		h, err := hex.DecodeString(ours.Text()[len("0 "):])
		if err != nil || header(h).Version() != protoVersion || read(h).String() != q.line {
			t.Fatalf("%s: theirs reads %v in ours", q.line, header(h))
		}
	}
}

func TestDefinitions(t *testing.T) {
	text := "\n"
	for _, name := range []string{"Header.antt", "Wire.antt"} {
		content, err := ioutil.ReadFile(filepath.Join(os.Getenv("SPECS"), name))
		if err != nil {
			t.Fatal(err)
		}
		text += string(content)
	}
	for _, line := range definitions() {
		if !strings.Contains(text, "\n"+line+"\n") {
			t.Errorf("frame/specs does not say: %s", line)
		}
	}
}

func TestMain(m *testing.M) {
	status := m.Run()
	if status == 0 {
		fmt.Printf("go: %d headers both ways, %d pairs of version and type and %d numbers are as in hashicorp/yamux\n",
			len(headers()), pairs, len(numbers())+len(definitions()))
	}
	os.Exit(status)
}
