// A client of the debug adapter on go-dap: it sends requests, reads every message into the types that go-dap has of the
// protocol, and keeps which fields these lack.
package main

import (
	"bufio"
	"bytes"
	"encoding/json"
	"io"
	"log"
	"os"
	"os/exec"
	"reflect"
	"time"

	"github.com/google/go-dap"
)

const limit = time.Minute // for an answer or a stop

type client struct {
	adapter *exec.Cmd
	in      io.WriteCloser
	heard   chan dap.Message
	events  []dap.EventMessage // that nobody waited for yet
	last    int                // the number of the last request
	thread  int                // the process of the last stop
	lacking map[string]bool    // what go-dap's types do not have
}

// Starts the adapter, by the words of a command line.
func start(words ...string) *client {
	adapter := exec.Command(words[0], words[1:]...)
	adapter.Stderr = os.Stderr
	in, err := adapter.StdinPipe()
	check(err)
	out, err := adapter.StdoutPipe()
	check(err)
	check(adapter.Start())
	c := &client{adapter: adapter, in: in, heard: make(chan dap.Message, 1000), lacking: map[string]bool{}}
	go c.read(bufio.NewReader(out))
	return c
}

func check(err error) {
	if err != nil {
		log.Fatal(err)
	}
}

// Reads messages up to the adapter's end.
func (c *client) read(from *bufio.Reader) {
	defer close(c.heard)
	for {
		content, err := dap.ReadBaseMessage(from)
		if err == io.EOF {
			return
		}
		check(err)
		message, err := dap.DecodeProtocolMessage(content)
		if err != nil {
			log.Fatalf("%v: %s", err, content)
		}
		c.readAgain(content, message)
		c.heard <- message
	}
}

// Notes the first field of a message that its type lacks.
func (c *client) readAgain(content []byte, message dap.Message) {
	decoder := json.NewDecoder(bytes.NewReader(content))
	decoder.DisallowUnknownFields()
	if err := decoder.Decode(reflect.New(reflect.TypeOf(message).Elem()).Interface()); err != nil {
		c.lacking[err.Error()] = true
	}
}

// The next message; undone where none comes.
func (c *client) next(wanted string) dap.Message {
	select {
	case message, isThere := <-c.heard:
		if !isThere {
			log.Fatalf("%s: the adapter has ended", wanted)
		}
		return message
	case <-time.After(limit):
		log.Fatalf("%s: nothing comes", wanted)
	}
	return nil
}

// How a request begins; it takes the next number.
func (c *client) request(command string) dap.Request {
	c.last++
	return dap.Request{ProtocolMessage: dap.ProtocolMessage{Seq: c.last, Type: "request"}, Command: command}
}

func (c *client) send(request dap.RequestMessage) {
	check(dap.WriteProtocolMessage(c.in, request))
}

// The answer to a request that was sent, by its number.
func (c *client) answer(number int) dap.ResponseMessage {
	for {
		switch message := c.next("an answer").(type) {
		case dap.EventMessage:
			c.events = append(c.events, message)
		case dap.ResponseMessage:
			if message.GetResponse().RequestSeq == number {
				return message
			}
		}
	}
}

// Sends a request, and gives its answer, which has to be of the type that belongs to it.
func ask[T dap.ResponseMessage](c *client, request dap.RequestMessage) T {
	c.send(request)
	answer := c.answer(request.GetSeq())
	typed, isRight := answer.(T)
	if !isRight {
		text, _ := json.Marshal(answer)
		log.Fatalf("%s is answered by %s", request.GetRequest().Command, text)
	}
	return typed
}

// The next event of a name; those before it are dropped.
func (c *client) event(name string) dap.EventMessage {
	for {
		for len(c.events) > 0 {
			first := c.events[0]
			c.events = c.events[1:]
			if first.GetEvent().Event == name {
				return first
			}
		}
		if event, isEvent := c.next(name).(dap.EventMessage); isEvent {
			c.events = append(c.events, event)
		}
	}
}

// The next stop, whose process is asked about from then on.
func (c *client) stop() dap.StoppedEventBody {
	stopped := c.event("stopped").(*dap.StoppedEvent)
	c.thread = stopped.Body.ThreadId
	return stopped.Body
}
