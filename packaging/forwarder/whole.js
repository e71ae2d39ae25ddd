// Hands on a server's answer once it is whole, so that it has a length. The oldest engine of nginx's that is still used
// knows neither `for .. of` nor `await`.
var fields = ['Content-Type', 'X-TAXII-Date-Added-First', 'X-TAXII-Date-Added-Last'];

function whole(r) {
    r.subrequest('/server' + r.uri, { args: r.variables.args || '', method: r.method }, function (reply) {
        fields.forEach(function (name) {
            if (reply.headersOut[name]) {
                r.headersOut[name] = reply.headersOut[name];
            }
        });
        r.return(reply.status, reply.responseBuffer);
    });
}

export default { whole };
