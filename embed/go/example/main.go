// The command example prints the response to a review under a policy: example POLICY REVIEW. Its status is that of
// `celbpf review`: 0 allowed, 1 denied, 3 no decision.
package main

import (
	"fmt"
	"os"

	"celbpf.example/celbpf"
)

// decided returns the response to the review in a file under the policy in another.
func decided(policyFile, reviewFile string) (celbpf.Response, error) {
	policy, err := os.ReadFile(policyFile)
	if err != nil {
		return celbpf.Response{}, err
	}
	review, err := os.ReadFile(reviewFile)
	if err != nil {
		return celbpf.Response{}, err
	}
	gate, err := celbpf.New(policy)
	if err != nil {
		return celbpf.Response{}, err
	}
	defer gate.Close()
	return gate.Decide(celbpf.Request{Review: review})
}

func main() {
	if len(os.Args) != 3 {
		fmt.Fprintln(os.Stderr, "usage: example POLICY REVIEW")
		os.Exit(2)
	}
	response, err := decided(os.Args[1], os.Args[2])
	if err != nil {
		fmt.Fprintln(os.Stderr, err)
		os.Exit(3)
	}
	fmt.Println(string(response.JSON))
	if !response.Allowed {
		os.Exit(1)
	}
}
