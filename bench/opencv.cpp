// OpenCV's filters on one thread. Along rows and columns the element is a rectangle, which OpenCV
// separates and any user would pick; along other slopes it is the line's first L pixels.
#include <algorithm>
#include <cstring>
#include <opencv2/imgproc.hpp>

#include "program.h"

static cv::Mat held, made;

static const char *version()
{
    return CV_VERSION;
}

static bool serves(struct order order)
{
    return !order.boxes;
}

static void take(const struct page *page)
{
    cv::setNumThreads(1);
    held = cv::Mat((int)page->height, (int)page->width, CV_8U, page->pixels);
    made = cv::Mat(held.size(), CV_8U, cv::Scalar(WHITE));
}

static struct spot pixel_of(struct order order, int step)
{
    return step_from(order.slope, spot{0, 0}, step);
}

// The line's pixels in the smallest rectangle around them, anchored at the middle one.
static cv::Mat element_of(struct order order, cv::Point &anchor)
{
    struct spot last = pixel_of(order, order.length - 1), middle = pixel_of(order, (order.length - 1) / 2);
    int left = std::min(0, last.column), top = std::min(0, last.row);
    cv::Mat element = cv::Mat::zeros(std::abs(last.row) + 1, std::abs(last.column) + 1, CV_8U);
    for (int step = 0; step < order.length; step++) {
        struct spot pixel = pixel_of(order, step);
        element.at<uchar>(pixel.row - top, pixel.column - left) = 1;
    }
    anchor = cv::Point(middle.column - left, middle.row - top);
    return element;
}

static double filter(struct order order)
{
    cv::Point anchor;
    cv::Mat element = element_of(order, anchor);
    double began = cpu_seconds();
    if (order.operation == ERODE)
        cv::erode(held, made, element, anchor);
    else
        cv::morphologyEx(held, made, cv::MORPH_OPEN, element, anchor);
    return cpu_seconds() - began;
}

static void give(uint8_t *pixels)
{
    std::memcpy(pixels, made.data, made.total());
}

const struct program opencv = {"OpenCV", version, true, serves, take, filter, give};
