// Client runs a script against a debug adapter. What is sent and read goes through the types of go-dap, so that a
// message of another form than the protocol's is an error.
//
// usage: client SCRIPT ADAPTER [WORD..]
//
// A line of the script is one of these; $NAME is a variable of the environment or a kept value, PATH keys with dots:
//
//	send COMMAND [JSON]   sends a request with these arguments, and awaits its response, which has to succeed
//	fails TEXT            after `send`: the response has to fail with a message that has this text
//	event NAME            awaits an event of this name; those before it are passed over
//	is PATH JSON          the value there in what was read last
//	has PATH TEXT         the text there has this text in it
//	no PATH               there is no such key, or an empty value
//	keep NAME PATH        keeps the value
//	raw TEXT              writes these bytes, a Go string without its quotes
//	children N            the adapter has N processes; they have to be gone when it ends
//	close                 closes the input of the adapter
//	ends STATUS           the adapter ends with this status
package main

import (
	"bufio"
	"encoding/json"
	"fmt"
	"io"
	"os"
	"os/exec"
	"reflect"
	"strconv"
	"strings"
	"time"

	"github.com/google/go-dap"
)

const patience = 60 * time.Second

type client struct {
	adapter  *exec.Cmd
	input    io.WriteCloser
	messages chan dap.Message
	broken   chan error
	last     interface{}
	failed   string
	kept     map[string]string
	children []string
	seq      int
	events   []dap.Message
}

// read hands on the messages of the adapter until its output ends.
func (c *client) read(output io.Reader) {
	reader := bufio.NewReader(output)
	for {
		message, err := dap.ReadProtocolMessage(reader)
		if err != nil {
			c.broken <- err
			return
		}
		c.messages <- message
	}
}

// next is the next message of the adapter.
func (c *client) next() (dap.Message, error) {
	select {
	case message := <-c.messages:
		return message, nil
	case err := <-c.broken:
		return nil, fmt.Errorf("no message: %v", err)
	case <-time.After(patience):
		return nil, fmt.Errorf("no message in %v", patience)
	}
}

// see makes a message what `is` and `has` look at.
func (c *client) see(message interface{}) error {
	text, err := json.Marshal(message)
	if err != nil {
		return err
	}
	c.last = nil
	return json.Unmarshal(text, &c.last)
}

func (c *client) send(line string) error {
	command, arguments, _ := strings.Cut(line, " ")
	if arguments == "" {
		arguments = "{}"
	}
	c.seq++
	text := fmt.Sprintf(`{"seq":%d,"type":"request","command":%q,"arguments":%s}`, c.seq, command, arguments)
	request, err := dap.DecodeProtocolMessage([]byte(text))
	if err != nil {
		return err
	}
	if err := dap.WriteProtocolMessage(c.input, request); err != nil {
		return err
	}
	return c.response()
}

func (c *client) response() error {
	c.events = nil
	for {
		message, err := c.next()
		if err != nil {
			return err
		}
		if event, ok := message.(dap.EventMessage); ok {
			c.events = append(c.events, event)
			continue
		}
		response, ok := message.(dap.ResponseMessage)
		if !ok {
			return fmt.Errorf("neither a response nor an event: %v", message)
		}
		if response.GetResponse().RequestSeq != c.seq {
			return fmt.Errorf("a response to request %d instead of %d", response.GetResponse().RequestSeq, c.seq)
		}
		c.failed = ""
		if !response.GetResponse().Success {
			c.failed = response.GetResponse().Message
		}
		return c.see(message)
	}
}

func (c *client) event(name string) error {
	for {
		var message dap.Message
		if len(c.events) > 0 {
			message, c.events = c.events[0], c.events[1:]
		} else {
			var err error
			if message, err = c.next(); err != nil {
				return err
			}
		}
		event, ok := message.(dap.EventMessage)
		if !ok {
			return fmt.Errorf("no event but %v", message)
		}
		if event.GetEvent().Event == name {
			return c.see(message)
		}
	}
}

// at is the value at a path of what was read last.
func (c *client) at(path string) (interface{}, bool) {
	value := c.last
	for _, key := range strings.Split(path, ".") {
		switch found := value.(type) {
		case map[string]interface{}:
			var ok bool
			if value, ok = found[key]; !ok {
				return nil, false
			}
		case []interface{}:
			if key == "length" {
				value = float64(len(found))
				continue
			}
			number, err := strconv.Atoi(key)
			if err != nil || number >= len(found) {
				return nil, false
			}
			value = found[number]
		default:
			return nil, false
		}
	}
	return value, true
}

func (c *client) is(line string) error {
	path, text, _ := strings.Cut(line, " ")
	var wanted interface{}
	if err := json.Unmarshal([]byte(text), &wanted); err != nil {
		return err
	}
	if found, _ := c.at(path); !reflect.DeepEqual(found, wanted) {
		shown, _ := json.Marshal(found)
		return fmt.Errorf("found %s", shown)
	}
	return nil
}

func (c *client) has(line string) error {
	path, wanted, _ := strings.Cut(line, " ")
	found, _ := c.at(path)
	if text, ok := found.(string); !ok || !strings.Contains(text, wanted) {
		return fmt.Errorf("found %v", found)
	}
	return nil
}

func (c *client) no(path string) error {
	found, ok := c.at(path)
	if ok && found != nil && !reflect.ValueOf(found).IsZero() {
		return fmt.Errorf("found %v", found)
	}
	return nil
}

func (c *client) keep(line string) error {
	name, path, _ := strings.Cut(line, " ")
	found, ok := c.at(path)
	if !ok {
		return fmt.Errorf("there is nothing at %s", path)
	}
	text, err := json.Marshal(found)
	c.kept[name] = string(text)
	return err
}

func (c *client) count(line string) error {
	pid := c.adapter.Process.Pid
	text, err := os.ReadFile(fmt.Sprintf("/proc/%d/task/%d/children", pid, pid))
	if err != nil {
		return err
	}
	c.children = strings.Fields(string(text))
	if strconv.Itoa(len(c.children)) != line {
		return fmt.Errorf("found %d", len(c.children))
	}
	return nil
}

func (c *client) raw(line string) error {
	text, err := strconv.Unquote(`"` + line + `"`)
	if err != nil {
		return err
	}
	_, err = io.WriteString(c.input, text)
	return err
}

// ends awaits the end of the adapter, after which none of its processes may be there.
func (c *client) ends(line string) error {
	done := make(chan error, 1)
	go func() { done <- c.adapter.Wait() }()
	select {
	case <-done:
	case <-time.After(patience):
		return fmt.Errorf("it has not ended in %v", patience)
	}
	if status := c.adapter.ProcessState.ExitCode(); strconv.Itoa(status) != line {
		return fmt.Errorf("it ended with status %d", status)
	}
	for _, child := range c.children {
		if _, err := os.Stat("/proc/" + child); err == nil {
			return fmt.Errorf("its process %s is still there", child)
		}
	}
	return nil
}

// do does a line; `failed` is looked at by the line after a `send`.
func (c *client) do(line string) error {
	word, rest, _ := strings.Cut(line, " ")
	if word == "fails" {
		found := c.failed
		c.failed = ""
		if found == "" || !strings.Contains(found, rest) {
			return fmt.Errorf("the message is %q", found)
		}
		return nil
	}
	if c.failed != "" {
		return fmt.Errorf("the request before failed: %s", c.failed)
	}
	rest = os.Expand(rest, func(name string) string {
		if value, ok := c.kept[name]; ok {
			return value
		}
		return os.Getenv(name)
	})
	words := map[string]func(string) error{
		"send": c.send, "event": c.event, "is": c.is, "has": c.has, "no": c.no, "keep": c.keep, "raw": c.raw,
		"children": c.count, "ends": c.ends, "close": func(string) error { return c.input.Close() },
	}
	if act, ok := words[word]; ok {
		return act(rest)
	}
	return fmt.Errorf("no such line")
}

func start(words []string) (*client, error) {
	c := &client{adapter: exec.Command(words[0], words[1:]...), kept: map[string]string{}}
	c.adapter.Stderr = os.Stderr
	c.messages, c.broken = make(chan dap.Message, 1000), make(chan error, 1)
	var err error
	if c.input, err = c.adapter.StdinPipe(); err != nil {
		return nil, err
	}
	output, err := c.adapter.StdoutPipe()
	if err != nil {
		return nil, err
	}
	if err := c.adapter.Start(); err != nil {
		return nil, err
	}
	go c.read(output)
	return c, nil
}

func main() {
	text, err := os.ReadFile(os.Args[1])
	if err != nil {
		fmt.Println(err)
		os.Exit(2)
	}
	c, err := start(os.Args[2:])
	if err != nil {
		fmt.Println(err)
		os.Exit(2)
	}
	for number, line := range strings.Split(string(text), "\n") {
		if line == "" || strings.HasPrefix(line, "#") {
			continue
		}
		if err := c.do(line); err != nil {
			fmt.Printf("%s:%d: %s\n%v\n", os.Args[1], number+1, line, err)
			c.adapter.Process.Kill()
			os.Exit(1)
		}
	}
}
