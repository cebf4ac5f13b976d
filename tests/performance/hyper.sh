# Read by scripts of this folder: builds a peer on Debian's hyper. Needs `folder`, and sets `hyper` to the program.

hyper_text() {
  cat <<'P'
//! Serves the connections of a port by hyper: GET is answered with a greeting, and POST with its own body.
use hyper::header::{HeaderValue, CONTENT_TYPE};
use hyper::server::conn::Http;
use hyper::service::service_fn;
use hyper::{Body, Method, Request, Response};
use std::convert::Infallible;
use tokio::net::TcpListener;
use tokio::runtime::Builder;

async fn answer(request: Request<Body>) -> Result<Response<Body>, Infallible> {
    let (kind, body) = match *request.method() {
        Method::POST => ("application/octet-stream", request.into_body()),
        _ => ("text/plain", Body::from("hello\n")),
    };
    let mut response = Response::new(body);
    response.headers_mut().insert(CONTENT_TYPE, HeaderValue::from_static(kind));
    Ok(response)
}

async fn serve(port: u16) -> std::io::Result<()> {
    let listener = TcpListener::bind(("127.0.0.1", port)).await?;
    loop {
        let (socket, _) = listener.accept().await?;
        socket.set_nodelay(true)?;
        tokio::spawn(async move { Http::new().serve_connection(socket, service_fn(answer)).await });
    }
}

fn main() -> std::io::Result<()> {
    let port = std::env::args().nth(1).and_then(|it| it.parse().ok()).expect("a port");
    Builder::new_current_thread().enable_io().build()?.block_on(serve(port))
}
P
}

# Runs a command, and shows what it printed where it fails.
quietly() { "$@" >"$folder/log" 2>&1 || { tail -40 "$folder/log" >&2; exit 1; }; }

install() { quietly apt-get update -qq; quietly env DEBIAN_FRONTEND=noninteractive apt-get install -y -qq --no-install-recommends "$@"; }

build_hyper() {
  local crates=/usr/share/cargo/registry
  ls -d "$crates"/hyper-0.14.* "$crates"/tokio-1.* >/dev/null 2>&1 || install librust-hyper-dev librust-tokio-dev
  command -v cargo >/dev/null || install cargo
  mkdir -p "$folder/hyper/src"
  hyper_text >"$folder/hyper/src/main.rs"
  printf '[package]\nname = "hyper_peer"\nversion = "0.0.0"\nedition = "2021"\n[dependencies]\n%s\n%s\n' \
    'hyper = { version = "0.14", features = ["http1", "server"] }' 'tokio = { version = "1", features = ["net", "rt"] }' >"$folder/hyper/Cargo.toml"
  quietly env -C "$folder/hyper" cargo build --release --offline --config 'source.crates-io.replace-with="debian"' \
    --config "source.debian.directory=\"$crates\""
  hyper=$folder/hyper/target/release/hyper_peer
}
