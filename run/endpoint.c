/* An endpoint of libfabric with all that it stands on. */

#include "endpoint.h"

#include <poll.h>
#include <rdma/fi_errno.h>
#include <stdio.h>
#include <stdlib.h>
#include <string.h>

#include "host.h"

/* Says which call failed and why; gives whether it did not. */
static bool done(int answer, const char *call, const nolthewyr_server *server, char *error)
{
    if (answer != 0)
        snprintf(error, NOLTHEWYR_ERROR_SIZE, "over %s: %s: %s", server->over, call, fi_strerror(abs(answer)));
    return answer == 0;
}

/* The order that lists of accesses need. In them a read follows reads and writes, and a write follows writes; no write follows a read that
 * only reads (FI_ORDER_ATOMIC_WAR), which `tcp;ofi_rxm` does not promise. */
static const uint64_t ORDER = FI_ORDER_ATOMIC_RAR | FI_ORDER_ATOMIC_RAW | FI_ORDER_ATOMIC_WAW;

/* Whether what is posted is made in the order of posting. For two atomics on one word the order of messages is not enough: fi_endpoint(3) wants
 * the order of data too, for as many bytes as a word has. On a card it is the reliable connection (RC queue pair) that guarantees both. `ofi_rxm`
 * grants no order of data (0 bytes) and keeps it all the same: each atomic is a message, and the server's process makes it as it comes. */
static bool is_ordered(const struct fi_info *info)
{
    bool messages = (info->tx_attr->msg_order & info->rx_attr->msg_order & ORDER) == ORDER;
    bool data = info->ep_attr->max_order_raw_size >= sizeof(uint64_t) && info->ep_attr->max_order_waw_size >= sizeof(uint64_t);
    return messages && (data || strstr(info->fabric_attr->prov_name, "ofi_rxm") != NULL);
}

/* What both sides ask of a provider: words read and changed, units read and written, each write in place before its completion is told
 * (FI_DELIVERY_COMPLETE), and any way of registering memory. Both sides drive the provider themselves. */
static struct fi_info *hints_of(const nolthewyr_server *server, uint64_t order)
{
    struct fi_info *hints = fi_allocinfo();
    if (hints == NULL)
        return NULL;
    hints->ep_attr->type = FI_EP_RDM;
    hints->caps = FI_ATOMIC | FI_RMA | FI_MSG;
    hints->tx_attr->op_flags = FI_DELIVERY_COMPLETE;
    hints->tx_attr->msg_order = hints->rx_attr->msg_order = order;
    hints->fabric_attr->prov_name = strdup(server->over);
    hints->domain_attr->data_progress = FI_PROGRESS_MANUAL;
    hints->domain_attr->mr_mode = FI_MR_VIRT_ADDR | FI_MR_ALLOCATED | FI_MR_PROV_KEY | FI_MR_LOCAL | FI_MR_ENDPOINT;
    return hints;
}

/* Asks libfabric for such a provider that keeps this order. */
static int asked(nolthewyr_endpoint *at, const nolthewyr_server *server, bool serves, uint64_t order)
{
    const char *host = server->host[0] == '\0' ? NULL : server->host, *port = serves && server->port[0] != '\0' ? server->port : NULL;
    uint64_t flags = serves && host != NULL ? FI_SOURCE : 0; /* the host is where the endpoint is, and not where it leads to */
    struct fi_info *hints = hints_of(server, order);
    int answer = hints == NULL ? -FI_ENOMEM : fi_getinfo(FI_VERSION(1, 17), host, port, flags, hints, &at->info);
    if (hints != NULL)
        fi_freeinfo(hints);
    return answer;
}

static bool found(nolthewyr_endpoint *at, const nolthewyr_server *server, bool serves, char *error)
{
    int answer = asked(at, server, serves, ORDER);
    if (answer != 0)
        answer = asked(at, server, serves, FI_ORDER_NONE);
    if (answer != 0)
        snprintf(error, NOLTHEWYR_ERROR_SIZE, "over %s%s%s: libfabric finds no such provider with atomics (fi_info(1) lists those that it has): %s",
                 server->over, server->host[0] == '\0' ? "" : " at ", server->host, fi_strerror(abs(answer)));
    else
        at->ordered = is_ordered(at->info);
    return answer == 0;
}

/* Opens the completion queue: of a server, whose file descriptor tells when there is something to do, if the provider has such a thing. */
static int completions_opened(nolthewyr_endpoint *at, bool serves)
{
    struct fi_cq_attr attributes = {.format = FI_CQ_FORMAT_CONTEXT, .wait_obj = FI_WAIT_FD};
    if (serves && fi_cq_open(at->domain, &attributes, &at->completions, NULL) == 0) {
        if (fi_control(&at->completions->fid, FI_GETWAIT, &at->work) == 0)
            return 0;
        fi_close(&at->completions->fid);
    }
    at->work = -1;
    attributes.wait_obj = FI_WAIT_NONE;
    return fi_cq_open(at->domain, &attributes, &at->completions, NULL);
}

/* Opens what the endpoint stands on, and joins it. */
static bool joined(nolthewyr_endpoint *at, const nolthewyr_server *server, bool serves, char *error)
{
    struct fi_av_attr addresses = {.type = FI_AV_MAP};
    return done(fi_fabric(at->info->fabric_attr, &at->fabric, NULL), "fi_fabric", server, error) &&
           done(fi_domain(at->fabric, at->info, &at->domain, NULL), "fi_domain", server, error) &&
           done(fi_av_open(at->domain, &addresses, &at->addresses, NULL), "fi_av_open", server, error) &&
           done(completions_opened(at, serves), "fi_cq_open", server, error) &&
           done(fi_endpoint(at->domain, at->info, &at->endpoint, NULL), "fi_endpoint", server, error) &&
           done(fi_ep_bind(at->endpoint, &at->addresses->fid, 0), "fi_ep_bind", server, error) &&
           done(fi_ep_bind(at->endpoint, &at->completions->fid, FI_TRANSMIT | FI_RECV), "fi_ep_bind", server, error) &&
           done(fi_enable(at->endpoint), "fi_enable", server, error);
}

bool nolthewyr_endpoint_open(nolthewyr_endpoint *at, const nolthewyr_server *server, bool serves, char *error)
{
    memset(at, 0, sizeof *at);
    if (nolthewyr_host_found(server, serves, error) && found(at, server, serves, error) && joined(at, server, serves, error))
        return true;
    nolthewyr_endpoint_close(at);
    return false;
}

struct fid_mr *nolthewyr_endpoint_register(nolthewyr_endpoint *at, void *memory, size_t size, uint64_t access, uint64_t key, char *error)
{
    struct fid_mr *region = NULL;
    int answer = fi_mr_reg(at->domain, memory, size, access, 0, key, 0, &region, NULL);
    if (answer == 0 && at->info->domain_attr->mr_mode & FI_MR_ENDPOINT) {
        answer = fi_mr_bind(region, &at->endpoint->fid, 0);
        answer = answer == 0 ? fi_mr_enable(region) : answer;
    }
    if (answer == 0)
        return region;
    snprintf(error, NOLTHEWYR_ERROR_SIZE, "%zu bytes cannot be registered: %s", size, fi_strerror(abs(answer)));
    if (region != NULL)
        fi_close(&region->fid);
    return NULL;
}

bool nolthewyr_endpoint_has_work(nolthewyr_endpoint *at, int milliseconds)
{
    struct pollfd work = {.fd = at->work, .events = POLLIN};
    struct fid *completions = &at->completions->fid;
    return at->work < 0 || fi_trywait(at->fabric, &completions, 1) != 0 || poll(&work, 1, milliseconds) > 0;
}

static void closed(struct fid *opened)
{
    if (opened != NULL)
        fi_close(opened);
}

#define FID(opened) ((opened) == NULL ? NULL : &(opened)->fid)

/* The last opened first, since each stands on those before. */
void nolthewyr_endpoint_close(nolthewyr_endpoint *at)
{
    closed(FID(at->endpoint));
    closed(FID(at->completions));
    closed(FID(at->addresses));
    closed(FID(at->domain));
    closed(FID(at->fabric));
    if (at->info != NULL)
        fi_freeinfo(at->info);
    memset(at, 0, sizeof *at);
}
