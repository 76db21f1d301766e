import ssl
import spmat
tls = ssl.create_default_context(cafile="server.crt")
tls.load_cert_chain("anna.pem")
with spmat.Session.connect("HOST", 7172, tls=tls) as s:
    print(s.from_triples([(0, 0, 41)], 1, 1).apply("plus", right=1).to_list())
