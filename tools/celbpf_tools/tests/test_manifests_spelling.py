"""What may be meant by kinds that no API server has."""

import unittest
from typing import Optional

from ..manifests.spelling import advice, near_in

ROWS: list[tuple[str, str, Optional[str]]] = [
    ("apps/v1", "Deployement", "did you mean Deployment?"),
    ("apps/v1", "deployment", "did you mean Deployment?"),
    ("apps/v1beta1", "Deployment", "Deployment is apps/v1"),
    ("v1", "Deployment", "Deployment is apps/v1"),
    ("app/v1", "Deployment", "Deployment is apps/v1"),
    ("extensions/v1beta1", "Ingress", "Ingress is networking.k8s.io/v1"),
    ("apps/v1", "Event", "Event is v1 or events.k8s.io/v1"),
    ("v1", "Deploymnt", "did you mean apps/v1 Deployment?"),
    ("v1", "Foo", "the core group has none of this name"),
    ("policy/v1beta1", "PodSecurityPolicy", "the group policy has none of this name"),
    ("skaffold/v2", "Config", "no API server has the group skaffold"),
    # a CustomResourceDefinition may have these
    ("x.io/v1", "Deployment", None),
    ("serving.knative.dev/v1", "Service", None),
]


class Spelling(unittest.TestCase):
    def test_rows(self) -> None:
        for api_version, kind, due in ROWS:
            with self.subTest(api_version=api_version, kind=kind):
                self.assertEqual(advice(api_version, kind), due)

    def test_a_group(self) -> None:
        group = "admissionregistration.k8s.io"
        self.assertEqual(near_in(group, "ValidatingAdmisionPolicy"), "ValidatingAdmissionPolicy")
        self.assertEqual(near_in(group, "ValidatingAdmissionPolicyBindings"), "ValidatingAdmissionPolicyBinding")
        self.assertIsNone(near_in(group, "ValidatingAdmissionPolicy"))
        self.assertIsNone(near_in(group, "Deployment"))


if __name__ == "__main__":
    unittest.main()
