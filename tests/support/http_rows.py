"""Rows of a request and of the bytes that it is answered, for each route in both formats.

A request is `GET` and a target; `POST`, a target, who sends it and the body, where an account comes
after its key and a slash, if there is one; or `RAW` and the bytes themselves. A reply is its
status, ` close` if the stream ends with it, the kind of its content and its body. `~` stands for
CRLF, `;` for LF and `→` for a tab. A row is a request, ` | ` and its reply. A line that ends with a
backslash goes on in the next.
"""
import re

# In turn over one registry.
EACH_ROUTE = r"""\
POST /account root who=alice&rank=0 | 200 OK json {"ok":true}
POST /submit alice path=PC/8086&name=Intel+Corporation | 200 OK json {"num":1,"ok":true}
GET /pending | 200 OK json [{"author":"alice","name":"Intel Corporation","num":1,"path":"PC/8086"}]
GET /pending?format=text | 200 OK text 1 alice name PC/8086 Intel Corporation;
GET /pending?after=1 | 200 OK json []
POST /approve alice num=1 | 403 Forbidden json {"ok":false,"refused":5,"word":"RankTooLow"}
POST /approve?format=text a1/root num=1 | 200 OK text ok;
POST /approve a1/root num=1 | 200 OK json {"ok":true}
POST /submit a1/root path=PC/10ec&name=Realtek | 200 OK json {"ok":true}
POST /approve root num=1 | 409 Conflict json {"ok":false,"refused":8,"word":"NotPending"}
GET /pci.ids | 200 OK text # PCI ID registry;8086  Intel Corporation;
GET /pci.ids? | 200 OK text # PCI ID registry;8086  Intel Corporation;
GET /pci.ids?format=text | 400 Bad Request json {"ok":false,"refused":3,"word":"BadText"}
GET /read/PC/8086 | 200 OK json {"name":"Intel Corporation","path":"PC/8086"}
GET /read/PC/8086?format=json | 200 OK json {"name":"Intel Corporation","path":"PC/8086"}
GET /read/PC/8086?format=text | 200 OK text Intel Corporation;
GET /read/PC/8087 | 404 Not Found json {"ok":false,"refused":25,"word":"NoItem"}
GET /read/PC/8087?format=text | 404 Not Found text refused 25 NoItem;
GET /read/PC/80A6 | 400 Bad Request json {"ok":false,"refused":1,"word":"BadPath"}
GET /read/PC/80A6?format=text | 400 Bad Request text refused 1 BadPath;
GET /read/PC%2F8086 | 400 Bad Request json {"ok":false,"refused":1,"word":"BadPath"}
GET /read/ | 404 Not Found json {"ok":false,"refused":24,"word":"NoRoute"}
GET /read/PC/8086?format=xml | 400 Bad Request json {"ok":false,"refused":3,"word":"BadText"}
GET /read/PC/8086?format=text&format=text | 400 Bad Request json {"ok":false,"refused":3,\
"word":"BadText"}
GET /read/PC/8086?name=x | 400 Bad Request json {"ok":false,"refused":3,"word":"BadText"}
GET /children | 200 OK json [{"name":"Intel Corporation","path":"PC/8086"}]
GET /children?of= | 200 OK json [{"name":"Intel Corporation","path":"PC/8086"}]
GET /children?format=text | 200 OK text PC/8086 Intel Corporation;
GET /children?of=PC/8086 | 200 OK json []
GET /children?of=PC%2f8086&format=text | 200 OK text
GET /children?of=PC/8087 | 404 Not Found json {"ok":false,"refused":25,"word":"NoItem"}
GET /children?of=PC/8087&format=text | 404 Not Found text refused 25 NoItem;
GET /children?of=PC/80A6 | 400 Bad Request json {"ok":false,"refused":1,"word":"BadPath"}
GET /children?format=text&of=x | 400 Bad Request text refused 1 BadPath;
GET /children?of=x&format=xml | 400 Bad Request json {"ok":false,"refused":3,"word":"BadText"}
GET /lookup?flags=3&vendor=8086&device=ffff | 200 OK bytes Intel Corporation Device ffff
GET /lookup?flags=1&vendor=8086&size=17 | 200 OK bytes Intel Corpora...
GET /lookup?flags=20001&vendor=1234 | 404 Not Found json {"ok":false,"refused":27,\
"word":"NoAnswer"}
GET /lookup?flags=80001 | 400 Bad Request json {"ok":false,"refused":26,"word":"BadFlags"}
GET /lookup | 400 Bad Request json {"ok":false,"refused":3,"word":"BadText"}
GET /lookup?flags=1&vendor=86 | 400 Bad Request json {"ok":false,"refused":3,"word":"BadText"}
GET /lookup?flags=1&format=text | 400 Bad Request json {"ok":false,"refused":3,"word":"BadText"}
GET /submission/1 | 200 OK json {"author":"alice","decider":"root","name":"Intel Corporation",\
"note":"","num":1,"path":"PC/8086","reason":"","remarks":[],"state":"approved"}
GET /submission/1?format=text | 200 OK text num 1;author alice;path PC/8086;name Intel \
Corporation;note ;state approved;decider root;reason ;
GET /submission/2 | 404 Not Found json {"ok":false,"refused":7,"word":"NoSubmission"}
GET /submission/2?format=text | 404 Not Found text refused 7 NoSubmission;
GET /submission/01 | 400 Bad Request json {"ok":false,"refused":3,"word":"BadText"}
GET /submission/2000000001?format=text | 400 Bad Request text refused 3 BadText;
GET /submission/1?of=1 | 400 Bad Request json {"ok":false,"refused":3,"word":"BadText"}
GET /submission/0 | 400 Bad Request json {"ok":false,"refused":3,"word":"BadText"}
GET /submission/2000000000 | 404 Not Found json {"ok":false,"refused":7,"word":"NoSubmission"}
GET /submission/1/2 | 404 Not Found json {"ok":false,"refused":24,"word":"NoRoute"}
GET /pci.ids?&& | 200 OK text # PCI ID registry;8086  Intel Corporation;
GET /pci.ids?= | 400 Bad Request json {"ok":false,"refused":3,"word":"BadText"}
GET /children?format=%6a%73on&of=PC%2F8086 | 200 OK json []
GET /lookup?vendor=8086 | 400 Bad Request json {"ok":false,"refused":3,"word":"BadText"}
GET /status?who=alice | 400 Bad Request json {"ok":false,"refused":3,"word":"BadText"}
GET /account?format=text&who=al%69ce | 200 OK text alice 0;
GET /submissions?author=alice&author=alice | 400 Bad Request json {"ok":false,"refused":3,\
"word":"BadText"}
RAW get /pci.ids HTTP/1.1~~ | 405 Method Not Allowed allow GET, POST
GET /pending | 200 OK json []
GET /pending?after=0&format=text | 200 OK text
GET /pending?after=00&format=text | 400 Bad Request json {"ok":false,"refused":3,"word":"BadText"}
GET /pending?after=1&after=2 | 400 Bad Request json {"ok":false,"refused":3,"word":"BadText"}
GET /changes | 200 OK json {"items":[{"name":"Intel Corporation","path":"PC/8086","since":3}],\
"revision":3}
GET /changes?since=3&format=text | 200 OK text revision 3;
GET /nope | 404 Not Found json {"ok":false,"refused":24,"word":"NoRoute"}
GET nope | 400 Bad Request json {"ok":false,"refused":28,"word":"BadTarget"}
GET http://a/pending | 400 Bad Request json {"ok":false,"refused":28,"word":"BadTarget"}
GET /submit | 405 Method Not Allowed allow POST
GET /import?of=x | 405 Method Not Allowed allow POST
POST /pending root after=0 | 405 Method Not Allowed allow GET
RAW PUT nope HTTP/1.1~Content-Length: 3~~abc | 405 Method Not Allowed allow GET, POST
POST /account?format=text root who=bob&rank=1 | 200 OK text ok;
POST /account root who=bob&rank=1 | 409 Conflict json {"ok":false,"refused":13,\
"word":"NothingToDo"}
POST /account root who=root&rank=2 | 403 Forbidden json {"ok":false,"refused":10,\
"word":"OwnDecision"}
POST /account?format=text carol who=bob&rank=2 | 403 Forbidden text refused 4 NoAccount;
POST /account root who=bob&rank=4 | 400 Bad Request json {"ok":false,"refused":3,"word":"BadText"}
GET /account?who=bob | 200 OK json {"rank":1,"who":"bob"}
GET /account?format=text&who=root | 200 OK text root 3;
RAW GET /account?who=alice HTTP/1.1~X-Account: root~~ | 200 OK json {"rank":0,"who":"alice"}
GET /account?who=carol | 404 Not Found json {"ok":false,"refused":29,"word":"NoSuchAccount"}
GET /account?who=carol&format=text | 404 Not Found text refused 29 NoSuchAccount;
GET /account?who=Bob&format=text | 400 Bad Request json {"ok":false,"refused":3,"word":"BadText"}
GET /account?who=bob&who=bob | 400 Bad Request json {"ok":false,"refused":3,"word":"BadText"}
RAW PUT /account HTTP/1.1~~ | 405 Method Not Allowed allow GET, POST
POST /submit?format=text k1/alice note=seen&name=440FX&path=PC/8086/1237 | 200 OK text ok 2;
POST /submit k1/alice path=PC/8086&remove=yes | 200 OK json {"num":2,"ok":true}
POST /submit alice path=PC/8086&remove=yes | 200 OK json {"num":3,"ok":true}
POST /submit alice path=PC/80A6&name= | 400 Bad Request json {"ok":false,"refused":1,\
"word":"BadPath"}
POST /submit?format=text alice path=PC/8086&name= | 400 Bad Request text refused 2 BadName;
POST /submit alice path=PC/80A6&name=x&remove=yes | 400 Bad Request json {"ok":false,"refused":3,\
"word":"BadText"}
POST /submit Alice path=PC/80A6&name=x | 400 Bad Request json {"ok":false,"refused":3,\
"word":"BadText"}
POST /submit?format=xml alice path=PC/80A6&name=x | 400 Bad Request json {"ok":false,"refused":3,\
"word":"BadText"}
RAW POST /withdraw?format=text HTTP/1.1~Content-Length: 5~~num=2 | 400 Bad Request text refused 3 \
BadText;
RAW POST /withdraw HTTP/1.1~X-Account: alice~x-account: alice~Content-Length: 5~~num=2 | 400 Bad \
Request json {"ok":false,"refused":3,"word":"BadText"}
RAW POST /withdraw HTTP/1.1~X-Account: alice~X-Key: a~X-KEY: a~Content-Length: 5~~num=2 | 400 Bad \
Request json {"ok":false,"refused":3,"word":"BadText"}
GET /pending | 200 OK json [{"author":"alice","name":"440FX","num":2,"path":"PC/8086/1237"},{\
"author":"alice","name":null,"num":3,"path":"PC/8086"}]
GET /pending?after=2&format=text | 200 OK text 3 alice remove PC/8086;
POST /comment root num=3&text=seen | 200 OK json {"ok":true}
POST /comment?format=text alice text=a+%22b%22%09%5C+%C3%A9&num=3 | 200 OK text ok;
POST /comment alice num=3 | 400 Bad Request json {"ok":false,"refused":3,"word":"BadText"}
POST /comment?format=text alice num=9&text=seen | 404 Not Found text refused 7 NoSubmission;
POST /reject alice num=2&reason=no | 403 Forbidden json {"ok":false,"refused":5,\
"word":"RankTooLow"}
POST /reject root num=2&reason= | 400 Bad Request json {"ok":false,"refused":3,"word":"BadText"}
POST /reject root num=3&reason=still+sold | 200 OK json {"ok":true}
POST /reject?format=text root num=3&reason=still+sold | 409 Conflict text refused 8 NotPending;
POST /withdraw root num=2 | 403 Forbidden json {"ok":false,"refused":9,"word":"NotAuthor"}
POST /withdraw?format=text alice num=2 | 200 OK text ok;
POST /withdraw alice num=2 | 409 Conflict json {"ok":false,"refused":8,"word":"NotPending"}
GET /submission/2 | 200 OK json {"author":"alice","decider":"alice","name":"440FX","note":"seen",\
"num":2,"path":"PC/8086/1237","reason":"","remarks":[],"state":"withdrawn"}
GET /submission/3 | 200 OK json {"author":"alice","decider":"root","name":null,"note":"","num":3,\
"path":"PC/8086","reason":"still sold","remarks":[{"author":"root","text":"seen"},{\
"author":"alice","text":"a \"b\"\t\\ é"}],"state":"rejected"}
GET /remarks?num=3 | 200 OK json {"author":"alice","count":2,"decider":"root","name":null,\
"note":"","num":3,"path":"PC/8086","reason":"still sold","remarks":[{"author":"root","place":1,\
"text":"seen"},{"author":"alice","place":2,"text":"a \"b\"\t\\ é"}],"state":"rejected"}
GET /remarks?num=3&after=1&format=text | 200 OK text num 3;author alice;path PC/8086;remove;note ;\
state rejected;decider root;reason still sold;count 2;remark 2 alice a "b"→\ é;
GET /remarks?after=2&num=3 | 200 OK json {"author":"alice","count":2,"decider":"root",\
"name":null,"note":"","num":3,"path":"PC/8086","reason":"still sold","remarks":[],\
"state":"rejected"}
GET /remarks?num=2&after=0&format=text | 200 OK text num 2;author alice;path PC/8086/1237;name \
440FX;note seen;state withdrawn;decider alice;reason ;count 0;
GET /remarks?num=4&format=text | 404 Not Found text refused 7 NoSubmission;
GET /remarks?num=4&after=1 | 404 Not Found json {"ok":false,"refused":7,"word":"NoSubmission"}
GET /remarks | 400 Bad Request json {"ok":false,"refused":3,"word":"BadText"}
GET /remarks?num=0&format=text | 400 Bad Request json {"ok":false,"refused":3,"word":"BadText"}
GET /remarks?num=3&after=01 | 400 Bad Request json {"ok":false,"refused":3,"word":"BadText"}
GET /remarks?num=3&before=1 | 400 Bad Request json {"ok":false,"refused":3,"word":"BadText"}
GET /remarks/3 | 404 Not Found json {"ok":false,"refused":24,"word":"NoRoute"}
POST /remarks root num=3 | 405 Method Not Allowed allow GET
POST /submit bob path=PC/10ec/8139&name=RTL | 200 OK json {"num":4,"ok":true}
POST /approve root num=4 | 409 Conflict json {"ok":false,"refused":11,"word":"ParentMissing"}
POST /approve?format=text bob num=4 | 403 Forbidden text refused 10 OwnDecision;
GET /queue | 200 OK json [{"author":"bob","name":"RTL","note":"","now":null,"num":4,\
"path":"PC/10ec/8139","remarks":0}]
GET /queue?after=3&format=text | 200 OK text 4 bob name PC/10ec/8139 RTL;
GET /queue?after=4 | 200 OK json []
GET /submissions?format=text&path=PC/8086 | 200 OK text before 0;3 rejected alice remove PC/8086;\
1 approved alice name PC/8086 Intel Corporation;
GET /submissions?author=bob&before=5 | 200 OK json {"before":0,"submissions":[{"author":"bob",\
"decider":"","name":"RTL","num":4,"path":"PC/10ec/8139","reason":"","remarks":0,\
"state":"pending"}]}
GET /submissions?author=alice&path=PC/8086&before=3 | 200 OK json {"before":0,"submissions":[{\
"author":"alice","decider":"root","name":"Intel Corporation","num":1,"path":"PC/8086","reason":"",\
"remarks":0,"state":"approved"}]}
GET /submissions?path=PC&format=text | 400 Bad Request text refused 1 BadPath;
GET /submissions?author=Bob&format=text | 400 Bad Request json {"ok":false,"refused":3,\
"word":"BadText"}
GET /status | 200 OK json {"accounts":3,"items":1,"pending":1,"revision":11,"submissions":4}
GET /status?format=text | 200 OK text accounts 3;items 1;pending 1;revision 11;submissions 4;
POST /status root format=text | 405 Method Not Allowed allow GET
GET /submission/3?format=text | 200 OK text num 3;author alice;path PC/8086;remove;note ;state \
rejected;decider root;reason still sold;remark root seen;remark alice a "b"→\ é;
POST /import root 8086  Intel;→1237  440FX;10ec  Realtek; | 200 OK json {"added":2,"ok":true,\
"renamed":1,"same":0}
POST /import?format=text i1/root 10ec  Realtek | 200 OK text ok added=0 renamed=0 same=1;
POST /import i1/root 10ec  J; | 200 OK json {"added":0,"ok":true,"renamed":0,"same":1}
POST /import root 8086  I;8086  J; | 422 Unprocessable Entity json {"kind":7,"line":2,"ok":false,\
"refused":14,"word":"FileFault"}
POST /import?format=text root 8086  I;8086  J; | 422 Unprocessable Entity text refused 14 \
FileFault line=2 kind=7 Duplicate;
POST /import alice 8086  I;8086  J; | 403 Forbidden json {"ok":false,"refused":5,\
"word":"RankTooLow"}
POST /import?format=text carol 8086  I; | 403 Forbidden text refused 4 NoAccount;
POST /import Root 8086  I; | 400 Bad Request json {"ok":false,"refused":3,"word":"BadText"}
POST /import?path=x root 8086  I; | 400 Bad Request json {"ok":false,"refused":3,"word":"BadText"}
GET /pci.ids | 200 OK text # PCI ID registry;10ec  Realtek;8086  Intel;→1237  440FX;
GET /children?format=text | 200 OK text PC/10ec Realtek;PC/8086 Intel;
GET /children?of=PC/8086 | 200 OK json [{"name":"440FX","path":"PC/8086/1237"}]
GET /read/PC/8086 | 200 OK json {"name":"Intel","path":"PC/8086"}
GET /lookup?flags=3&vendor=8086&device=1237 | 200 OK bytes Intel 440FX
POST /submit alice path=PC/8086&remove=yes | 200 OK json {"num":5,"ok":true}
POST /approve root num=5 | 409 Conflict json {"ok":false,"refused":12,"word":"HasChildren"}
"""

# Three commands name the first item, and a fourth the second.
CHANGES = r"""\
GET /changes | 200 OK json {"items":[],"revision":0}
POST /account root who=alice&rank=0 | 200 OK json {"ok":true}
POST /submit alice path=PC/8086&name=Intel+Corporation | 200 OK json {"num":1,"ok":true}
POST /approve root num=1 | 200 OK json {"ok":true}
POST /import?format=text i1/root 8086  Intel Corporation;10ec  Realtek; | 200 OK text ok added=1 \
renamed=0 same=1;
POST /import?format=text i1/root 10ec  J; | 200 OK text ok added=1 renamed=0 same=1;
GET /changes?since=3 | 200 OK json {"items":[{"name":"Realtek","path":"PC/10ec","since":4}],\
"revision":4}
GET /changes?since=3&format=text | 200 OK text revision 4;4 PC/10ec Realtek;
GET /children | 200 OK json [{"name":"Realtek","path":"PC/10ec"},{"name":"Intel Corporation",\
"path":"PC/8086"}]
GET /children?format=text | 200 OK text PC/10ec Realtek;PC/8086 Intel Corporation;
GET /changes?format=text | 200 OK text revision 4;4 PC/10ec Realtek;3 PC/8086 Intel Corporation;
GET /changes?format=text&after=PC/10ec&since=0 | 200 OK text revision 4;3 PC/8086 Intel \
Corporation;
GET /changes?after=PC/8086 | 200 OK json {"items":[],"revision":4}
GET /changes?after=PC/4321&format=text | 200 OK text revision 4;3 PC/8086 Intel Corporation;
GET /changes?after=&format=text&since=4 | 200 OK text revision 4;
GET /changes?since=9000000000000000000 | 200 OK json {"items":[],"revision":4}
GET /changes?since=9000000000000000001 | 400 Bad Request json {"ok":false,"refused":3,\
"word":"BadText"}
GET /changes?since=03 | 400 Bad Request json {"ok":false,"refused":3,"word":"BadText"}
GET /changes?since=&format=text | 400 Bad Request json {"ok":false,"refused":3,"word":"BadText"}
GET /changes?since=1&since=1 | 400 Bad Request json {"ok":false,"refused":3,"word":"BadText"}
GET /changes?of=PC/8086 | 400 Bad Request json {"ok":false,"refused":3,"word":"BadText"}
GET /changes?after=PC | 400 Bad Request json {"ok":false,"refused":1,"word":"BadPath"}
GET /changes?after=PC&format=text | 400 Bad Request text refused 1 BadPath;
GET /changes?after=PC&since=x | 400 Bad Request json {"ok":false,"refused":3,"word":"BadText"}
POST /changes root since=0 | 405 Method Not Allowed allow GET
POST /submit alice path=PC/10ec&remove=yes | 200 OK json {"num":2,"ok":true}
POST /approve root num=2 | 200 OK json {"ok":true}
GET /changes?format=text | 200 OK text revision 6;3 PC/8086 Intel Corporation;
"""

# What the lists and a submission of a removal look like.
REMOVALS = r"""\
POST /account root who=alice&rank=0 | 200 OK json {"ok":true}
POST /submit?format=text alice path=PC/8086&remove=yes | 200 OK text ok 1;
GET /pending | 200 OK json [{"author":"alice","name":null,"num":1,"path":"PC/8086"}]
GET /pending?format=text | 200 OK text 1 alice remove PC/8086;
POST /submit?format=text alice path=PC/8086&remove=yes | 200 OK text ok 2;
POST /comment alice num=2&text=seen | 200 OK json {"ok":true}
POST /comment root num=2&text=so+be+it | 200 OK json {"ok":true}
POST /withdraw alice num=2 | 200 OK json {"ok":true}
GET /submission/2 | 200 OK json {"author":"alice","decider":"alice","name":null,"note":"","num":2,\
"path":"PC/8086","reason":"","remarks":[{"author":"alice","text":"seen"},{"author":"root",\
"text":"so be it"}],"state":"withdrawn"}
GET /submission/2?format=text | 200 OK text num 2;author alice;path PC/8086;remove;note ;state \
withdrawn;decider alice;reason ;remark alice seen;remark root so be it;
"""

BAD_HEAD = '400 Bad Request close json {"ok":false,"refused":20,"word":"BadHead"}'
SHORT = '400 Bad Request close json {"ok":false,"refused":23,"word":"BodyShort"}'
TOO_LONG = '413 Payload Too Large close json {"ok":false,"refused":21,"word":"BodyTooLong"}'
NO_ROUTE = 'json {"ok":false,"refused":24,"word":"NoRoute"}'
# How a stream goes on, or ends, after a request, each in a connection of its own: of these the
# first request alone is answered. `alice` has an account.
ENDS = [
    f"RAW POST / HTTP/1.1~Content-Length: 1~Content-Length: 1~~a | {BAD_HEAD}",
    f"RAW POST / HTTP/1.1~Content-Length: x~~ | {BAD_HEAD}",
    f"RAW POST / HTTP/1.1~Content-Length: +1~~a | {BAD_HEAD}",
    f"RAW GET~ | {BAD_HEAD}",
    f"RAW \r~ | {BAD_HEAD}",
    f"RAW GET /none HTTP/1.1~A: {'a' * 16_357}~~ | 404 Not Found {NO_ROUTE}",
    f"RAW GET /none HTTP/1.1~A: {'a' * 16_358}~~ | {BAD_HEAD}",
    f"RAW GET /none HTTP/1.1~A: {'a' * 16_362} | {BAD_HEAD}",
    f"RAW GET /none HTTP/1.1~{'A: b~' * 32}~ | 404 Not Found {NO_ROUTE}",
    f"RAW GET /none HTTP/1.1~{'A: b~' * 33}~ | {BAD_HEAD}",
    "RAW GET / HTTP/1.1~Content-Length: x~transfer-encoding: gzip~~ | "
    '501 Not Implemented close json {"ok":false,"refused":22,"word":"Encoding"}',
    f"RAW GET /nope HTTP/1.1~Content-Length: {'9' * 30}~~ | {TOO_LONG}",
    f"RAW POST /import HTTP/1.1~X-Account: alice~Content-Length: 20~~8086  Int | {SHORT}",
    f"RAW POST /import HTTP/1.1~Content-Length: 20~~8086  Int;x;y | {SHORT}",
    f"RAW POST /submit HTTP/1.1~X-Account: alice~Content-Length: 20~~path=PC/8086 | {SHORT}",
    f"RAW PUT /nope HTTP/1.0~Content-Length: 1~~ | {SHORT}",
    f"RAW GET /none HTTP/1.0~Connection: keep-alive~~GET /none HTTP/1.1~~ | "
    f"404 Not Found close {NO_ROUTE}",
    "RAW HEAD /pci.ids HTTP/1.0~~ | 405 Method Not Allowed close allow GET, POST",
    "RAW GET /pending HTTP/1.1~Connection: close~~GET /pending HTTP/1.1~~ | 200 OK close json []",
    "RAW GET /pending HTTP/1.1~Connection: keep-alive, Close~~more | 200 OK close json []",
    "RAW GET /pending HTTP/1.1~Content-Length: 00~Connection: keep-alive,→ Close ~~GET | "
    "200 OK close json []",
    "RAW POST /import HTTP/1.1~X-Account: root~connection: close~Content-Length: 1~~#GET | "
    '200 OK close json {"added":0,"ok":true,"renamed":0,"same":0}',
    "RAW GET /pending HTTP/1.1~Connection: keep-alive, closed~~ | 200 OK json []",
    "RAW ~~GET /pending HTTP/1.1~~~ | 200 OK json []",
    "RAW ;GET /pending HTTP/1.1~~ | 200 OK json []",
    "RAW POST /account HTTP/1.1~X-Account: root~content-LENGTH:  16 ~~who=alice&rank=0 | "
    '409 Conflict json {"ok":false,"refused":13,"word":"NothingToDo"}',
]

# A command, the text of all items, and a command whose body is short, in one stream.
THREE = [
    'POST /account root who=alice&rank=0 | 200 OK json {"ok":true}',
    "GET /pci.ids | 200 OK text # PCI ID registry;",
    f"RAW POST /submit HTTP/1.1~X-Account: alice~Content-Length: 35~~path=PC/8086 | {SHORT}",
]

FAILED_JSON = '503 Service Unavailable json {"ok":false,"refused":18,"word":"Failed"}'
FAILED_TEXT = "503 Service Unavailable text refused 18 Failed;"
# Each route in a format, as a registry is asked that has failed; then what is known without it.
FAILED = f"""\
GET /pci.ids | {FAILED_JSON}
GET /read/PC/8086 | {FAILED_JSON}
GET /read/PC/8086?format=text | {FAILED_TEXT}
GET /children | {FAILED_JSON}
GET /children?of=PC/8086&format=text | {FAILED_TEXT}
GET /lookup?flags=3&vendor=8086&device=ffff | {FAILED_JSON}
GET /lookup?flags=30000 | {FAILED_JSON}
GET /submission/1 | {FAILED_JSON}
GET /submission/1?format=text | {FAILED_TEXT}
GET /remarks?num=1 | {FAILED_JSON}
GET /remarks?num=1&after=1&format=text | {FAILED_TEXT}
GET /pending | {FAILED_JSON}
GET /pending?after=1&format=text | {FAILED_TEXT}
GET /changes | {FAILED_JSON}
GET /queue | {FAILED_JSON}
GET /submissions?author=root&format=text | {FAILED_TEXT}
GET /status | {FAILED_JSON}
GET /account?who=root&format=text | {FAILED_TEXT}
POST /account root who=alice&rank=0 | {FAILED_JSON}
POST /submit?format=text root path=PC/8086&name=Intel | {FAILED_TEXT}
POST /comment root num=1&text=seen | {FAILED_JSON}
POST /withdraw root num=1 | {FAILED_JSON}
POST /approve?format=text root num=1 | {FAILED_TEXT}
POST /confirm root num=1&was= | {FAILED_JSON}
POST /reject root num=1&reason=no | {FAILED_JSON}
POST /import root 8086  Intel; | {FAILED_JSON}
POST /import?format=text k1/root 8086  I;8086  J; | {FAILED_TEXT}
GET /read/PC/80A6 | 400 Bad Request json {{"ok":false,"refused":1,"word":"BadPath"}}
GET /submission/01 | 400 Bad Request json {{"ok":false,"refused":3,"word":"BadText"}}
GET /nope | 404 Not Found {NO_ROUTE}
GET /submit | 405 Method Not Allowed allow POST
POST /submit Root path=PC/8086&name=Intel | 400 Bad Request json {{"ok":false,"refused":3,\
"word":"BadText"}}
POST /submit root path=PC/80A6&name=Intel | 400 Bad Request json {{"ok":false,"refused":1,\
"word":"BadPath"}}
"""

ROWS = {"each route": EACH_ROUTE, "changes": CHANGES, "removals": REMOVALS}
FIELDS = {
    "json": "Content-Type: application/json~",
    "text": "Content-Type: text/plain; charset=utf-8~",
    "bytes": "Content-Type: text/plain~",
}


def bytes_of(text):
    return text.replace("~", "\r\n").replace(";", "\n").replace("→", "\t").encode()


def request_of(line):
    method, rest = line.split(" ", 1)
    if method == "RAW":
        return bytes_of(rest)
    if method == "GET":
        return bytes_of(f"GET {rest} HTTP/1.1~~")
    target, sender, body = rest.split(" ", 2)
    key, slash, account = sender.rpartition("/")
    fields = f"X-Account: {account}~" + (f"X-Key: {key}~" if slash else "")
    length = len(bytes_of(body))
    return bytes_of(f"POST {target} HTTP/1.1~{fields}Content-Length: {length}~~{body}")


def reply_of(line):
    form = r"(.*?)( close)? (json|text|bytes|allow) ?(.*)"
    status, closes, kind, body = re.fullmatch(form, line).groups()
    close = "Connection: close~" if closes else ""
    if kind == "allow":
        return bytes_of(f"HTTP/1.1 {status}~Content-Length: 0~Allow: {body}~{close}~")
    content = bytes_of(body)
    # A semicolon of a field is itself.
    head = f"HTTP/1.1 {status}~{FIELDS[kind]}Content-Length: {len(content)}~{close}~"
    return head.replace("~", "\r\n").encode() + content


def pairs_of(text):
    """Each row's line, with the bytes of the request and those of the reply."""
    for row in text.replace("\\\n", "").strip("\n").split("\n"):
        asked, replied = row.split(" | ", 1)
        yield asked, request_of(asked), reply_of(replied)
