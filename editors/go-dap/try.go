// Sessions of the adapter by go-dap: forwards and back through examples/bill.ghc, then a goal that fails and a line
// that is cancelled, and a program that is mended in between. They need Debian's golang-go and golang-github-google-go-dap-dev. From the repository:
//
//	GO111MODULE=off GOPATH=/usr/share/gocode go run editors/go-dap/*.go
//
// What they told when they were recorded stands in session.txt.
package main

import (
	"encoding/json"
	"fmt"
	"os"
	"path/filepath"
	"sort"
	"strings"
	"time"

	"github.com/google/go-dap"
)

const (
	bill    = "examples/bill.ghc"
	endless = "p(N) :- true | M := N + 1, p(M).\nq(1).\n"
	sum     = "total(A,B,T) :- true | price(A,P), price(B,Q), T := P + Q.\n"
	wrong   = sum + "price(N,P) :- N < 10 | P := N * 10.\nprice(N,P) :- N >= 10 | P := N * 80.\n"
	mended  = sum + "price(N,P) :- N < 10 | P := N * 10.\nprice(N,P) :- N >= 10 | P := N * 8.\n"
	soon    = 300 * time.Millisecond // in which a million steps are not taken
)

// The first line of bill.ghc that begins with a word.
func lineOf(word string) int {
	text, err := os.ReadFile(bill)
	check(err)
	for place, line := range strings.Split(string(text), "\n") {
		if strings.HasPrefix(line, word) {
			return place + 1
		}
	}
	panic(word + " begins no line")
}

// Asks for a session, and tells what the adapter can do that not every debugger does.
func (c *client) initialize() {
	arguments := dap.InitializeRequestArguments{AdapterID: "ghcdb", LinesStartAt1: true, ColumnsStartAt1: true}
	request := &dap.InitializeRequest{Request: c.request("initialize"), Arguments: arguments}
	can := ask[*dap.InitializeResponse](c, request).Body
	fmt.Printf("steps back: %v, cancels: %v\n", can.SupportsStepBack, can.SupportsCancelRequest)
	for _, filter := range can.ExceptionBreakpointFilters {
		fmt.Printf("filter %s: %s\n", filter.Filter, filter.Label)
	}
}

// Begins a session, with breakpoints set as an editor does, up to its first stop.
func (c *client) begin(given map[string]string, breakpoints func()) {
	launch, err := json.Marshal(given)
	check(err)
	ask[*dap.LaunchResponse](c, &dap.LaunchRequest{Request: c.request("launch"), Arguments: launch})
	c.event("initialized")
	breakpoints()
	ask[*dap.ConfigurationDoneResponse](c, &dap.ConfigurationDoneRequest{Request: c.request("configurationDone")})
	c.tellStop("entry")
}

// Tells what was said of breakpoints that were set.
func tellSet(breakpoints []dap.Breakpoint) {
	for _, breakpoint := range breakpoints {
		fmt.Printf("breakpoint: %v %s\n", breakpoint.Verified, breakpoint.Message)
	}
}

// Sets breakpoints at the first clause of price/2, each with a condition.
func (c *client) breakAt(file string, conditions ...string) {
	points := []dap.SourceBreakpoint{}
	for _, condition := range conditions {
		points = append(points, dap.SourceBreakpoint{Line: lineOf("price"), Condition: condition})
	}
	arguments := dap.SetBreakpointsArguments{Source: dap.Source{Path: file}, Breakpoints: points}
	request := &dap.SetBreakpointsRequest{Request: c.request("setBreakpoints"), Arguments: arguments}
	tellSet(ask[*dap.SetBreakpointsResponse](c, request).Body.Breakpoints)
}

func (c *client) breakAtGoals(names ...string) {
	points := []dap.FunctionBreakpoint{}
	for _, name := range names {
		points = append(points, dap.FunctionBreakpoint{Name: name})
	}
	arguments := dap.SetFunctionBreakpointsArguments{Breakpoints: points}
	request := &dap.SetFunctionBreakpointsRequest{Request: c.request("setFunctionBreakpoints"), Arguments: arguments}
	tellSet(ask[*dap.SetFunctionBreakpointsResponse](c, request).Body.Breakpoints)
}

func (c *client) breakWhereBound(variables ...string) {
	points := []dap.DataBreakpoint{}
	for _, variable := range variables {
		points = append(points, dap.DataBreakpoint{DataId: variable})
	}
	arguments := dap.SetDataBreakpointsArguments{Breakpoints: points}
	request := &dap.SetDataBreakpointsRequest{Request: c.request("setDataBreakpoints"), Arguments: arguments}
	tellSet(ask[*dap.SetDataBreakpointsResponse](c, request).Body.Breakpoints)
}

// Tells the next stop: where the process stands.
func (c *client) tellStop(what string) {
	reason := c.stop().Reason
	arguments := dap.StackTraceArguments{ThreadId: c.thread}
	request := &dap.StackTraceRequest{Request: c.request("stackTrace"), Arguments: arguments}
	frame := ask[*dap.StackTraceResponse](c, request).Body.StackFrames[0]
	fmt.Printf("%s: %s, at %s line %d (%s)\n", what, frame.Name, frame.Source.Name, frame.Line, reason)
}

func (c *client) goOn(what string) {
	arguments := dap.ContinueArguments{ThreadId: c.thread}
	ask[*dap.ContinueResponse](c, &dap.ContinueRequest{Request: c.request("continue"), Arguments: arguments})
	c.tellStop(what)
}

func (c *client) stepIn() {
	arguments := dap.StepInArguments{ThreadId: c.thread}
	ask[*dap.StepInResponse](c, &dap.StepInRequest{Request: c.request("stepIn"), Arguments: arguments})
	c.tellStop("step in")
}

func (c *client) reverse() {
	arguments := dap.ReverseContinueArguments{ThreadId: c.thread}
	request := &dap.ReverseContinueRequest{Request: c.request("reverseContinue"), Arguments: arguments}
	ask[*dap.ReverseContinueResponse](c, request)
	c.tellStop("back to who bound P")
}

func (c *client) stepBack() {
	arguments := dap.StepBackArguments{ThreadId: c.thread}
	ask[*dap.StepBackResponse](c, &dap.StepBackRequest{Request: c.request("stepBack"), Arguments: arguments})
	c.tellStop("step back")
}

// What a line of the editor's console, or a name in it, is answered by.
func (c *client) evaluate(expression string) dap.EvaluateResponseBody {
	arguments := dap.EvaluateArguments{Expression: expression, Context: "repl"}
	request := &dap.EvaluateRequest{Request: c.request("evaluate"), Arguments: arguments}
	return ask[*dap.EvaluateResponse](c, request).Body
}

// Asks for a list, and tells how long it is, and a page of it.
func (c *client) tellPage(name string, start, count int) {
	list := c.evaluate(name)
	reference := list.VariablesReference
	arguments := dap.VariablesArguments{VariablesReference: reference, Filter: "indexed", Start: start, Count: count}
	request := &dap.VariablesRequest{Request: c.request("variables"), Arguments: arguments}
	page := ask[*dap.VariablesResponse](c, request).Body.Variables
	fmt.Printf("%s = %s has %d elements\n", name, list.Result, list.IndexedVariables)
	for _, element := range page {
		fmt.Printf("element %s: %s\n", element.Name, element.Value)
	}
}

// Sends a line, cancels it while it goes on, and tells its answer.
func (c *client) cancelled(expression string) {
	arguments := dap.EvaluateArguments{Expression: expression, Context: "repl"}
	line := &dap.EvaluateRequest{Request: c.request("evaluate"), Arguments: arguments}
	c.send(line)
	time.Sleep(soon)
	c.send(&dap.CancelRequest{Request: c.request("cancel"), Arguments: dap.CancelArguments{RequestId: line.Seq}})
	fmt.Printf("%s: %s\n", expression, c.answer(line.Seq).GetResponse().Message)
}

// Restarts, and tells where the session goes on.
func (c *client) restart(what string) {
	ask[*dap.RestartResponse](c, &dap.RestartRequest{Request: c.request("restart")})
	c.tellStop(what)
}

// Ends the adapter, and tells what of its messages go-dap did not know.
func (c *client) end() {
	ask[*dap.DisconnectResponse](c, &dap.DisconnectRequest{Request: c.request("disconnect")})
	check(c.in.Close())
	for range c.heard { // up to the adapter's end
	}
	check(c.adapter.Wait())
	lacking := []string{}
	for field := range c.lacking {
		lacking = append(lacking, field)
	}
	sort.Strings(lacking)
	fmt.Printf("not known to go-dap: %s\n", strings.Join(lacking, "; "))
}

// Forwards and back through bill.ghc.
func playBill() {
	file, err := filepath.Abs(bill)
	check(err)
	c := start("node", "editors/ghcdb-adapter")
	c.initialize()
	c.begin(map[string]string{"program": file}, func() { c.breakAt(file, "N > 100", "price(12,_)") })
	c.goOn("continue to the breakpoint")
	c.stepIn()
	c.breakAt(file)
	c.breakAtGoals("price(3", "price(3,_)")
	c.goOn("continue to the goal")
	c.breakAtGoals()
	c.goOn("continue to the end")
	fmt.Printf("T = %s\n", c.evaluate("T").Result)
	c.breakWhereBound("P", "_1_1")
	c.reverse()
	c.stepBack()
	c.breakWhereBound()
	c.evaluate("step 1.1 3")
	c.tellStop("step 1.1 3 in the console")
	c.goOn("continue to the end")
	fmt.Printf("T = %s\n", c.evaluate("T").Result)
	c.end()
}

// A goal that fails, a page of a list, and a line that is cancelled.
func playEndless(file string) {
	write(file, endless)
	c := start("node", "editors/ghcdb-adapter")
	c.initialize()
	c.begin(map[string]string{"program": file, "query": "L = [a,b,c,d], X = 0, q(X)"}, func() {})
	c.goOn("continue to what fails")
	c.tellPage("L", 1, 2)
	fmt.Println(c.evaluate("ask p(0)").Result)
	c.tellStop("asked for")
	c.cancelled("skip 3.1")
	fmt.Println(c.evaluate("goals").Result)
	c.end()
}

// The steps by clauses that are still there stay; where nothing has changed a session begins anew.
func playMended(file string) {
	write(file, wrong)
	c := start("node", "editors/ghcdb-adapter")
	c.initialize()
	c.begin(map[string]string{"program": file, "query": "total(12,3,T)"}, func() {})
	c.goOn("continue to the end")
	fmt.Printf("T = %s\n", c.evaluate("T").Result)
	write(file, mended)
	c.restart("restart with a clause mended")
	fmt.Println(c.evaluate("records").Result)
	c.goOn("continue to the end")
	fmt.Printf("T = %s\n", c.evaluate("T").Result)
	c.restart("restart with nothing changed")
	c.end()
}

func write(file, text string) {
	check(os.WriteFile(file, []byte(text), 0o600))
}

func main() {
	folder, err := os.MkdirTemp("", "ghcdb-test-")
	check(err)
	defer os.RemoveAll(folder)
	playBill()
	playEndless(filepath.Join(folder, "endless.ghc"))
	playMended(filepath.Join(folder, "mended.ghc"))
}
