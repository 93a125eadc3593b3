package celbpf

import (
	"bytes"
	"errors"
	"os"
	"path/filepath"
	"strings"
	"sync"
	"testing"
)

const examples = "../../../examples/policies"

type example struct {
	name     string
	policy   []byte
	request  Request
	response []byte
}

// first is the first of these files that is there.
func first(names ...string) []byte {
	for _, name := range names {
		if text, err := os.ReadFile(name); err == nil {
			return text
		}
	}
	return nil
}

func allExamples(t testing.TB) []example {
	names, err := filepath.Glob(examples + "/*/*.review.json")
	if err != nil || len(names) == 0 {
		t.Fatal("there are no examples", err)
	}
	var all []example
	for _, name := range names {
		folder, stem := filepath.Dir(name), strings.TrimSuffix(name, ".review.json")
		all = append(all, example{
			name:   name,
			policy: first(folder + "/policy.json"),
			request: Request{
				Review:    first(name),
				Namespace: first(stem+".namespace.json", folder+"/namespace.json"),
				Params:    first(stem+".params.json", folder+"/params.json"),
			},
			response: bytes.TrimSuffix(first(stem+".response.json"), []byte("\n")),
		})
	}
	return all
}

func check(t *testing.T, of example, response Response, err error) {
	allowed := bytes.Contains(of.response, []byte(`"allowed":true`))
	if err != nil || response.Allowed != allowed || !bytes.Equal(response.JSON, of.response) {
		t.Errorf("%s: %v %s %v", of.name, response.Allowed, response.JSON, err)
	}
}

func TestExamples(t *testing.T) {
	for _, of := range allExamples(t) {
		for _, language := range []Language{Wide, Profile} {
			gate, err := NewIn(language, of.policy)
			if err != nil {
				t.Fatal(of.name, err)
			}
			response, err := gate.Decide(of.request)
			check(t, of, response, err)
			response, err = ReviewIn(language, of.policy, of.request)
			check(t, of, response, err)
			gate.Close()
		}
	}
	t.Log(len(allExamples(t)), "reviews")
}

func TestManyGoroutines(t *testing.T) {
	pools := map[string]*Pool{}
	all := allExamples(t)
	for _, of := range all {
		if folder := filepath.Dir(of.name); pools[folder] == nil {
			pool, err := NewPool(of.policy, 2)
			if err != nil {
				t.Fatal(of.name, err)
			}
			pools[folder] = pool
		}
	}
	var wait sync.WaitGroup
	for n := 0; n < 64; n++ {
		wait.Add(1)
		go func(n int) {
			defer wait.Done()
			for k := range all {
				of := all[(k+n*7)%len(all)]
				response, err := pools[filepath.Dir(of.name)].Decide(of.request)
				check(t, of, response, err)
			}
		}(n)
	}
	wait.Wait()
	for _, pool := range pools {
		pool.Close()
		pool.Close()
		if _, err := pool.Decide(all[0].request); !errors.Is(err, Closed) {
			t.Error("a closed pool:", err)
		}
	}
}

// TestUnclosed leaves gates to the collector, and one that moves between goroutines.
func TestUnclosed(t *testing.T) {
	of := allExamples(t)[0]
	gate, err := New(of.policy)
	if err != nil {
		t.Fatal(err)
	}
	var wait sync.WaitGroup
	for n := 0; n < 64; n++ {
		wait.Add(1)
		go func() {
			defer wait.Done()
			if _, err := New(of.policy); err != nil {
				t.Error(err)
			}
			response, err := gate.Decide(of.request)
			check(t, of, response, err)
		}()
	}
	wait.Wait()
}

func TestRefusals(t *testing.T) {
	of := allExamples(t)[0]
	if _, err := New(nil); !errors.Is(err, PolicyUnread) || errors.Is(err, PolicyUncompiled) {
		t.Error("no policy:", err)
	}
	var refusal *Refusal
	if _, err := NewPool([]byte("{}"), 3); !errors.As(err, &refusal) || refusal.Line != "celbpf: K2" {
		t.Error("no policy:", err)
	}
	gate, err := New(of.policy)
	if err != nil {
		t.Fatal(err)
	}
	for want, request := range map[Status]Request{
		ReviewRefused:   {Review: []byte("{")},
		DocumentRefused: {Review: of.request.Review, Params: []byte("[")},
		OutOfSteps:      {Review: of.request.Review, Steps: 1},
		OutOfReads:      {Review: of.request.Review, Reads: 1},
	} {
		if _, err := gate.Decide(request); !errors.Is(err, want) {
			t.Error(want, err)
		}
	}
	gate.Close()
	gate.Close()
	if _, err := gate.Decide(of.request); !errors.Is(err, Closed) {
		t.Error("a closed gate:", err)
	}
}

// ofExpression is a policy with this expression.
func ofExpression(text string) []byte {
	return []byte(`{"apiVersion":"admissionregistration.k8s.io/v1","kind":"ValidatingAdmissionPolicy",` +
		`"spec":{"validations":[{"expression":"` + text + `"}]}}`)
}

func TestWide(t *testing.T) {
	policy := ofExpression("object.?spec.?replicas.orValue(1) <= 3")
	request := Request{Review: first(examples + "/replicas/five.review.json")}
	gate, err := New(policy)
	if err != nil {
		t.Fatal(err)
	}
	defer gate.Close()
	response, err := gate.Decide(request)
	message := []byte(`"message":"failed expression: object.?spec.?replicas.orValue(1) <= 3"`)
	if err != nil || response.Allowed || !bytes.Contains(response.JSON, message) {
		t.Error(response.Allowed, string(response.JSON), err)
	}
	if alone, err := Review(policy, request); err != nil || !bytes.Equal(alone.JSON, response.JSON) {
		t.Error(string(alone.JSON), err)
	}
	long := strings.Repeat("a", 5000)
	for language, lines := range map[Language]map[string]string{
		Wide:    {"url('a')": "celbpf: K6 validation 0 W5 url", long: "celbpf: K6 validation 0 W5 " + long},
		Profile: {"object.?spec.hasValue()": "celbpf: K6 validation 0 P4 at 7"},
	} {
		for text, line := range lines {
			var refusal *Refusal
			if _, err := NewPoolIn(language, ofExpression(text), 2); !errors.As(err, &refusal) || refusal.Line != line {
				t.Error(line, err)
			}
			if _, err := ReviewIn(language, ofExpression(text), request); !errors.Is(err, PolicyUncompiled) {
				t.Error(line, err)
			}
		}
	}
}

func TestCompile(t *testing.T) {
	of := allExamples(t)[0]
	image, err := Compile(of.policy)
	if err != nil || !bytes.HasPrefix(image, []byte("CELBPF02")) {
		t.Error(err)
	}
	if _, err := Compile([]byte("[]")); !errors.Is(err, PolicyUnread) {
		t.Error(err)
	}
}

// hostile has expressions that take the most stack to read in each language, and hostileLines their refusals: one is too
// deep, and one has too many nodes.
var hostile = []string{Wide: "object" + strings.Repeat(".a", 2044), Profile: strings.Repeat("!", 4095) + "true"}
var hostileLines = []string{Wide: "celbpf: K6 validation 0 W10", Profile: "celbpf: G3"}

func TestHostilePolicy(t *testing.T) {
	var wait sync.WaitGroup
	for n := 0; n < 16; n++ {
		wait.Add(1)
		go func(language Language) {
			defer wait.Done()
			var refusal *Refusal
			if _, err := NewIn(language, ofExpression(hostile[language])); !errors.As(err, &refusal) || refusal.Line != hostileLines[language] {
				t.Error(err)
			}
		}(Language(n % 2))
	}
	wait.Wait()
}

func BenchmarkNew(b *testing.B) {
	policy := first(examples + "/replicas/policy.json")
	for n := 0; n < b.N; n++ {
		gate, err := New(policy)
		if err != nil {
			b.Fatal(err)
		}
		gate.Close()
	}
}

func BenchmarkDecide(b *testing.B) {
	gate, err := New(first(examples + "/replicas/policy.json"))
	if err != nil {
		b.Fatal(err)
	}
	defer gate.Close()
	request := Request{Review: first(examples + "/replicas/five.review.json")}
	b.ResetTimer()
	for n := 0; n < b.N; n++ {
		if _, err := gate.Decide(request); err != nil {
			b.Fatal(err)
		}
	}
}

func BenchmarkPool(b *testing.B) {
	pool, err := NewPool(first(examples+"/replicas/policy.json"), 0)
	if err != nil {
		b.Fatal(err)
	}
	defer pool.Close()
	request := Request{Review: first(examples + "/replicas/five.review.json")}
	b.ResetTimer()
	b.RunParallel(func(p *testing.PB) {
		for p.Next() {
			if _, err := pool.Decide(request); err != nil {
				b.Error(err)
			}
		}
	})
}
